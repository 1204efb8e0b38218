fun main () : transaction page =
  return <xml>
    <head><title>Guest book</title></head>
    <body><h1>Guest book</h1><p>Welcome.</p></body>
  </xml>
