sequence ids
table entry : {Id : int, Name : string, Body : string, Likes : int} PRIMARY KEY Id
cookie name : string

con entries :: {Type} = [Id = int, Name = string, Body = string, Likes = int]
val columns : Records.columns entries =
  {Id = {Title = "Number", Show = fn (n : int) => show n},
   Name = {Title = "Name", Show = fn (s : string) => s},
   Body = {Title = "Text", Show = fn (s : string) => s},
   Likes = {Title = "Likes", Show = fn (n : int) => show n}}

con sums :: {Type} = [Count = int, Likes = int]
val totals : Records.columns sums =
  {Count = {Title = "Entries", Show = fn (n : int) => show n},
   Likes = {Title = "Likes", Show = fn (n : int) => show n ^ " in all"}}

fun main () : transaction page =
  me <- getCookie name;
  rows <- queryX (SELECT * FROM entry ORDER BY entry.Id DESC)
    (fn r => <xml><p><a link={from r.Entry.Name}>{[r.Entry.Name]}</a>: {[r.Entry.Body]}</p>
      <form>{[r.Entry.Likes]} <submit action={like r.Entry.Id} value="Like"/>
        <submit action={drop r.Entry.Id} value="Delete"/></form></xml>);
  return <xml>
    <head><title>Guest book</title></head>
    <body><h1>Guest book</h1><p><a link={all ()}>All entries</a></p>{rows}{case me of
        None => <xml><form>Name <textbox{#Name}/> <submit action={sign} value="This is me"/></form></xml>
      | Some who => <xml><form>{[who]}: <textbox{#Body}/> <submit action={add} value="Add"/></form></xml>}</body>
  </xml>
and from (who : string) : transaction page =
  rows <- queryX (SELECT entry.Body FROM entry WHERE entry.Name = {[who]} ORDER BY entry.Id DESC)
    (fn r => <xml><p>{[r.Entry.Body]}</p></xml>);
  return <xml>
    <head><title>{[who]}</title></head>
    <body><h1>{[who]}</h1>{rows}<p><a link={main ()}>Back</a></p></body>
  </xml>
and sign (r : {Name : string}) : transaction page =
  setCookie name {Value = r.Name, Expires = None, Secure = False};
  return <xml><body><p>Hello, {[r.Name]}. <a link={main ()}>To the guest book</a></p></body></xml>
and add (r : {Body : string}) : transaction page =
  me <- getCookie name;
  case me of
    None => error <xml>Say first who you are.</xml>
  | Some who =>
      n <- nextval ids;
      dml (INSERT INTO entry (Id, Name, Body, Likes) VALUES ({[n]}, {[who]}, {[r.Body]}, 0));
      main ()
and like (id : int) (u : unit) : transaction page =
  dml (UPDATE entry SET Likes = Likes + 1 WHERE Id = {[id]});
  main ()
and drop (id : int) (u : unit) : transaction page =
  dml (DELETE FROM entry WHERE Id = {[id]});
  main ()
and all () : transaction page =
  rows <- queryX (SELECT * FROM entry ORDER BY entry.Id)
    (fn r => <xml><tr>{Records.cells [entries] columns r.Entry}</tr></xml>);
  c <- oneRow (SELECT COUNT( * ) AS Count, SUM(entry.Likes) AS Likes FROM entry);
  return <xml>
    <head><title>All entries</title></head>
    <body>
      <table><tr>{Records.heads [entries] columns}</tr>{rows}</table>
      <table><tr>{Records.heads [sums] totals}</tr><tr>{Records.cells [sums] totals c}</tr></table>
    </body>
  </xml>
