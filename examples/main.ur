sequence ids
table note : {Id : int, Owner : string, Body : string} PRIMARY KEY Id

fun list (who : string) : transaction page =
  rows <- queryX (SELECT note.Id, note.Body FROM note
                  WHERE note.Owner = {[who]} ORDER BY note.Id)
    (fn r => <xml><p>{[r.Note.Body]}</p><form><submit action={drop r.Note.Id} value="Drop"/></form><form><textbox{#To}/><submit action={move r.Note.Id} value="Move"/></form></xml>);
  return <xml><head><title>Notes</title></head><body><h1>{[who]}</h1>{rows}<form><textbox{#Body}/><submit action={add who} value="Add"/></form></body></xml>
and add (who : string) (r : {Body : string}) : transaction page =
  n <- nextval ids;
  dml (INSERT INTO note (Id, Owner, Body) VALUES ({[n]}, {[who]}, {[r.Body]}));
  list who
and drop (id : int) (u : unit) : transaction page =
  dml (DELETE FROM note WHERE Id = {[id]});
  return <xml><body><p>done</p></body></xml>
and move (id : int) (r : {To : string}) : transaction page =
  dml (UPDATE note SET Owner = {[r.To]} WHERE Id = {[id]});
  return <xml><body><p>done</p></body></xml>
