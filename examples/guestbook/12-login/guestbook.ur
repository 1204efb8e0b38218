sequence ids
table entry : {Id : int, Name : string, Body : string} PRIMARY KEY Id
cookie user : string

fun isOf (me : option string) (name : string) : bool =
  case me of
    None => False
  | Some who => who = name

fun main () : transaction page =
  me <- getCookie user;
  rows <- queryX (SELECT * FROM entry ORDER BY entry.Id DESC)
    (fn r => <xml><p>{[r.Entry.Name]}: {[r.Entry.Body]}</p>{if isOf me r.Entry.Name
      then <xml><form><submit action={drop r.Entry.Id} value="Delete"/></form></xml> else <xml/>}</xml>);
  return <xml>
    <head><title>Guest book</title></head>
    <body><h1>Guest book</h1>{rows}{case me of
        None => <xml><p>Who writes has to log in.</p></xml>
      | Some who => <xml><form>{[who]}: <textbox{#Body}/> <submit action={add} value="Add"/></form></xml>}</body>
  </xml>
and writer () : transaction string =
  me <- getCookie user;
  case me of
    None => error <xml>Who writes has to log in.</xml>
  | Some who => return who
and add (r : {Body : string}) : transaction page =
  who <- writer ();
  n <- nextval ids;
  dml (INSERT INTO entry (Id, Name, Body) VALUES ({[n]}, {[who]}, {[r.Body]}));
  main ()
and drop (id : int) (u : unit) : transaction page =
  who <- writer ();
  dml (DELETE FROM entry WHERE Id = {[id]} AND Name = {[who]});
  main ()
