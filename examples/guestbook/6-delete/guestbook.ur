sequence ids
table entry : {Id : int, Name : string, Body : string, Likes : int} PRIMARY KEY Id

fun main () : transaction page =
  rows <- queryX (SELECT * FROM entry ORDER BY entry.Id DESC)
    (fn r => <xml><p><a link={from r.Entry.Name}>{[r.Entry.Name]}</a>: {[r.Entry.Body]}</p>
      <form>{[r.Entry.Likes]} <submit action={like r.Entry.Id} value="Like"/>
        <submit action={drop r.Entry.Id} value="Delete"/></form></xml>);
  return <xml>
    <head><title>Guest book</title></head>
    <body><h1>Guest book</h1>{rows}<form>
      Name <textbox{#Name}/> Text <textbox{#Body}/> <submit action={add} value="Add"/>
    </form></body>
  </xml>
and from (who : string) : transaction page =
  rows <- queryX (SELECT entry.Body FROM entry WHERE entry.Name = {[who]} ORDER BY entry.Id DESC)
    (fn r => <xml><p>{[r.Entry.Body]}</p></xml>);
  return <xml>
    <head><title>{[who]}</title></head>
    <body><h1>{[who]}</h1>{rows}<p><a link={main ()}>Back</a></p></body>
  </xml>
and add (r : {Name : string, Body : string}) : transaction page =
  n <- nextval ids;
  dml (INSERT INTO entry (Id, Name, Body, Likes) VALUES ({[n]}, {[r.Name]}, {[r.Body]}, 0));
  main ()
and like (id : int) (u : unit) : transaction page =
  dml (UPDATE entry SET Likes = Likes + 1 WHERE Id = {[id]});
  main ()
and drop (id : int) (u : unit) : transaction page =
  dml (DELETE FROM entry WHERE Id = {[id]});
  main ()
