sequence ids
table entry : {Id : int, Name : string, Body : string} PRIMARY KEY Id
table answer : {Id : int, Entry : int, Name : string, Body : string} PRIMARY KEY Id

fun main () : transaction page =
  rows <- queryX (SELECT * FROM entry ORDER BY entry.Id DESC)
    (fn r => <xml><p>{[r.Entry.Name]}: {[r.Entry.Body]} <a link={read r.Entry.Id}>Answers</a></p></xml>);
  news <- queryX (SELECT answer.Name, answer.Body, entry.Id, entry.Name FROM answer JOIN entry ON answer.Entry = entry.Id
                  ORDER BY answer.Id DESC LIMIT 5)
    (fn r => <xml><li>{[r.Answer.Name]} to <a link={read r.Entry.Id}>{[r.Entry.Name]}</a>: {[r.Answer.Body]}</li></xml>);
  counts <- queryX (SELECT entry.Name, COUNT( * ) AS N FROM answer JOIN entry ON answer.Entry = entry.Id
                    GROUP BY entry.Name ORDER BY entry.Name)
    (fn r => <xml><li>{[r.Entry.Name]}: {[r.N]}</li></xml>);
  return <xml>
    <head><title>Guest book</title></head>
    <body><h1>Guest book</h1>{rows}<form>
      Name <textbox{#Name}/> Text <textbox{#Body}/> <submit action={add} value="Add"/>
    </form><h2>New answers</h2><ul>{news}</ul><h2>Who was answered</h2><ul>{counts}</ul></body>
  </xml>
and read (id : int) : transaction page =
  e <- oneRow (SELECT * FROM entry WHERE entry.Id = {[id]});
  answers <- queryX (SELECT * FROM answer WHERE answer.Entry = {[id]} ORDER BY answer.Id)
    (fn r => <xml><li>{[r.Answer.Name]}: {[r.Answer.Body]}</li></xml>);
  return <xml>
    <head><title>{[e.Entry.Name]}</title></head>
    <body><p>{[e.Entry.Body]}</p><ul>{answers}</ul><form>
      Name <textbox{#Name}/> Text <textbox{#Body}/> <submit action={reply id} value="Answer"/>
    </form></body>
  </xml>
and add (r : {Name : string, Body : string}) : transaction page =
  n <- nextval ids;
  dml (INSERT INTO entry (Id, Name, Body) VALUES ({[n]}, {[r.Name]}, {[r.Body]}));
  main ()
and reply (id : int) (r : {Name : string, Body : string}) : transaction page =
  n <- nextval ids;
  dml (INSERT INTO answer (Id, Entry, Name, Body) VALUES ({[n]}, {[id]}, {[r.Name]}, {[r.Body]}));
  read id
