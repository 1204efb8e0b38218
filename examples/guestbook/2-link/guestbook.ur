fun main () : transaction page =
  return <xml>
    <head><title>Guest book</title></head>
    <body><h1>Guest book</h1><p>By <a link={from "ann"}>ann</a> or <a link={from "bob & co"}>bob</a>.</p></body>
  </xml>
and from (who : string) : transaction page =
  return <xml>
    <head><title>{[who]}</title></head>
    <body><h1>{[who]}</h1><p>Nothing yet.</p><p><a link={main ()}>Back</a></p></body>
  </xml>
