sequence ids
table entry : {Id : int, Name : string, Body : string, Likes : int} PRIMARY KEY Id
cookie name : string

fun main () : transaction page =
  me <- getCookie name;
  rows <- queryX (SELECT * FROM entry ORDER BY entry.Id DESC)
    (fn r => <xml><p><a link={from r.Entry.Name}>{[r.Entry.Name]}</a>: {[r.Entry.Body]}</p>
      <form>{[r.Entry.Likes]} <submit action={like r.Entry.Id} value="Like"/>
        <submit action={drop r.Entry.Id} value="Delete"/></form></xml>);
  return <xml>
    <head><title>Guest book</title></head>
    <body><h1>Guest book</h1>{rows}{case me of
        None => <xml><form>Name <textbox{#Name}/> <submit action={sign} value="This is me"/></form></xml>
      | Some who => <xml><form>{[who]}: <textbox{#Body}/> <submit action={add} value="Add"/></form></xml>}</body>
  </xml>
and from (who : string) : transaction page =
  rows <- queryX (SELECT entry.Body FROM entry WHERE entry.Name = {[who]} ORDER BY entry.Id DESC)
    (fn r => <xml><p>{[r.Entry.Body]}</p></xml>);
  return <xml>
    <head><title>{[who]}</title></head>
    <body><h1>{[who]}</h1>{rows}<p><a link={main ()}>Back</a></p></body>
  </xml>
and sign (r : {Name : string}) : transaction page =
  setCookie name {Value = r.Name, Expires = None, Secure = False};
  return <xml><body><p>Hello, {[r.Name]}. <a link={main ()}>To the guest book</a></p></body></xml>
and add (r : {Body : string}) : transaction page =
  me <- getCookie name;
  case me of
    None => error <xml>Say first who you are.</xml>
  | Some who =>
      n <- nextval ids;
      dml (INSERT INTO entry (Id, Name, Body, Likes) VALUES ({[n]}, {[who]}, {[r.Body]}, 0));
      main ()
and like (id : int) (u : unit) : transaction page =
  dml (UPDATE entry SET Likes = Likes + 1 WHERE Id = {[id]});
  main ()
and drop (id : int) (u : unit) : transaction page =
  dml (DELETE FROM entry WHERE Id = {[id]});
  main ()
