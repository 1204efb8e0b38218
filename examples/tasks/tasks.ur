sequence ids
table task : {Id : int, Title : string, Due : option string, Parent : option int} PRIMARY KEY Id

fun date (day : string) : option string = if day = "" then None else Some day
fun due (day : option string) : xbody = case day of None => <xml>no date</xml> | Some d => <xml>{[d]}</xml>

fun main () : transaction page =
  rows <- queryX (SELECT task.Id, task.Title, task.Due FROM task WHERE task.Parent IS NULL ORDER BY task.Due, task.Id)
    (fn r => <xml><p><a link={under r.Task.Id}>{[r.Task.Title]}</a>, {due r.Task.Due}</p></xml>);
  return <xml>
    <head><title>Tasks</title></head>
    <body><h1>Tasks</h1>{rows}<form><textbox{#Title}/><textbox{#Due}/><submit action={add} value="Add"/></form></body>
  </xml>
and under (id : int) : transaction page =
  t <- oneRow (SELECT task.Title, task.Due, task.Parent FROM task WHERE task.Id = {[id]});
  rows <- queryX (SELECT task.Id, task.Title, task.Due FROM task WHERE task.Parent = SOME({[id]}) ORDER BY task.Due, task.Id)
    (fn r => <xml><p><a link={under r.Task.Id}>{[r.Task.Title]}</a>, {due r.Task.Due}</p></xml>);
  return <xml>
    <head><title>{[t.Task.Title]}</title></head>
    <body><h1>{[t.Task.Title]}, {due t.Task.Due}</h1>{up t.Task.Parent}{rows}<form><textbox{#Title}/><textbox{#Due}/><submit action={part id} value="Add"/></form><form><textbox{#Due}/><submit action={plan id} value="Plan"/></form><form><submit action={drop id} value="Drop"/></form></body>
  </xml>
and up (parent : option int) : xbody =
  case parent of
    None => <xml><p><a link={main ()}>All tasks</a></p></xml>
  | Some id => <xml><p><a link={under id}>Up</a></p></xml>
and add (r : {Title : string, Due : string}) : transaction page =
  n <- nextval ids;
  dml (INSERT INTO task (Id, Title, Due, Parent) VALUES ({[n]}, {[r.Title]}, {[date r.Due]}, NULL));
  main ()
and part (id : int) (r : {Title : string, Due : string}) : transaction page =
  n <- nextval ids;
  dml (INSERT INTO task (Id, Title, Due, Parent) VALUES ({[n]}, {[r.Title]}, {[date r.Due]}, SOME({[id]})));
  under id
and plan (id : int) (r : {Due : string}) : transaction page =
  dml (UPDATE task SET Due = {[date r.Due]} WHERE Id = {[id]});
  under id
and drop (id : int) (u : unit) : transaction page =
  dml (UPDATE task SET Parent = NULL WHERE Parent = SOME({[id]}));
  dml (DELETE FROM task WHERE Id = {[id]});
  main ()
