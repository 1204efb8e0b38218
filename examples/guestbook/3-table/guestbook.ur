table entry : {Id : int, Name : string, Body : string} PRIMARY KEY Id

fun main () : transaction page =
  rows <- queryX (SELECT entry.Name, entry.Body FROM entry ORDER BY entry.Id DESC)
    (fn r => <xml><p><a link={from r.Entry.Name}>{[r.Entry.Name]}</a>: {[r.Entry.Body]}</p></xml>);
  c <- oneRow (SELECT COUNT( * ) AS N FROM entry);
  return <xml>
    <head><title>Guest book</title></head>
    <body><h1>Guest book</h1><p>Entries: {[c.N]}</p>{rows}</body>
  </xml>
and from (who : string) : transaction page =
  rows <- queryX (SELECT entry.Body FROM entry WHERE entry.Name = {[who]} ORDER BY entry.Id DESC)
    (fn r => <xml><p>{[r.Entry.Body]}</p></xml>);
  return <xml>
    <head><title>{[who]}</title></head>
    <body><h1>{[who]}</h1>{rows}<p><a link={main ()}>Back</a></p></body>
  </xml>
