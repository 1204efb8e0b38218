sequence ids
table entry : {Id : int, Name : string, Body : string, Place : option string} PRIMARY KEY Id

fun main () : transaction page =
  rows <- queryX (SELECT * FROM entry ORDER BY entry.Id DESC)
    (fn r => <xml><p>{[r.Entry.Name]}{at r.Entry.Place}: {[r.Entry.Body]}</p></xml>);
  return <xml>
    <head><title>Guest book</title></head>
    <body><h1>Guest book</h1>{rows}<p><a link={nowhere ()}>From nowhere</a></p><form>
      Name <textbox{#Name}/> Place <textbox{#Place}/> Text <textbox{#Body}/> <submit action={add} value="Add"/>
    </form></body>
  </xml>
and at (place : option string) : xbody =
  case place of
    None => <xml/>
  | Some p => <xml>, <a link={from p}>{[p]}</a></xml>
and from (place : string) : transaction page =
  rows <- queryX (SELECT entry.Name, entry.Body FROM entry WHERE entry.Place = SOME({[place]}) ORDER BY entry.Id DESC)
    (fn r => <xml><p>{[r.Entry.Name]}: {[r.Entry.Body]}</p></xml>);
  return <xml>
    <head><title>{[place]}</title></head>
    <body><h1>{[place]}</h1>{rows}<p><a link={main ()}>Back</a></p></body>
  </xml>
and nowhere () : transaction page =
  rows <- queryX (SELECT entry.Name, entry.Body FROM entry WHERE entry.Place IS NULL ORDER BY entry.Id DESC)
    (fn r => <xml><p>{[r.Entry.Name]}: {[r.Entry.Body]}</p></xml>);
  return <xml>
    <head><title>Nowhere</title></head>
    <body><h1>Nowhere</h1>{rows}<p><a link={main ()}>Back</a></p></body>
  </xml>
and add (r : {Name : string, Place : string, Body : string}) : transaction page =
  n <- nextval ids;
  put n r;
  main ()
and put (n : int) (r : {Name : string, Place : string, Body : string}) : transaction unit =
  if r.Place = "" then dml (INSERT INTO entry (Id, Name, Body, Place) VALUES ({[n]}, {[r.Name]}, {[r.Body]}, NULL))
  else dml (INSERT INTO entry (Id, Name, Body, Place) VALUES ({[n]}, {[r.Name]}, {[r.Body]}, SOME({[r.Place]})))
