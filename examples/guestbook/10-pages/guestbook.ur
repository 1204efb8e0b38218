sequence ids
table entry : {Id : int, Name : string, Body : string} PRIMARY KEY Id

val size : int = 2

fun main () : transaction page = page 0
and page (n : int) : transaction page =
  c <- oneRow (SELECT COUNT( * ) AS All FROM entry);
  rows <- queryX (SELECT * FROM entry ORDER BY entry.Id DESC LIMIT {[size]} OFFSET {[n * size]})
    (fn r => <xml><p>{[r.Entry.Name]}: {[r.Entry.Body]}</p></xml>);
  return <xml>
    <head><title>Guest book</title></head>
    <body><h1>Guest book</h1>{rows}<p>
      {if n > 0 then <xml><a link={page (n - 1)}>Newer</a></xml> else <xml/>}
      {if (n + 1) * size < c.All then <xml><a link={page (n + 1)}>Older</a></xml> else <xml/>}
    </p><form>
      Name <textbox{#Name}/> Text <textbox{#Body}/> <submit action={add} value="Add"/>
    </form></body>
  </xml>
and add (r : {Name : string, Body : string}) : transaction page =
  n <- nextval ids;
  dml (INSERT INTO entry (Id, Name, Body) VALUES ({[n]}, {[r.Name]}, {[r.Body]}));
  main ()
