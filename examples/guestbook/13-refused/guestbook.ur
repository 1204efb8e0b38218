sequence ids
table entry : {Id : int, Name : string, Body : string} PRIMARY KEY Id

fun main () : transaction page =
  rows <- queryX (SELECT * FROM entry ORDER BY entry.Id DESC)
    (fn r => <xml><tr><td>{[r.Entry.Id]}</td><td>{[r.Entry.Text]}</td></tr></xml>);
  return <xml>
    <head><title>Guest book</title></head>
    <body><h1>Guest book</h1><table>{rows}</table></body>
  </xml>
