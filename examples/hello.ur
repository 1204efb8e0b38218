fun main (n : int) : transaction page =
  return <xml><head><title>Hello</title></head><body><p>n is {[n]}</p></body></xml>
