table entry : {Id : int, Name : string, Body : string, Stars : int} PRIMARY KEY Id

fun stars (s : string) : option int =
  case s of
    "1" => Some 1
  | "2" => Some 2
  | "3" => Some 3
  | _ => None

fun main () : transaction page = list "" "" "" <xml/>
and list (name : string) (body : string) (given : string) (wrong : xbody) : transaction page =
  c <- oneRow (SELECT MAX(entry.Id) AS Id FROM entry);
  rows <- queryX (SELECT * FROM entry ORDER BY entry.Id DESC)
    (fn r => <xml><p>{[r.Entry.Name]}: {[r.Entry.Body]} ({[r.Entry.Stars]} of 3)</p></xml>);
  return <xml>
    <head><title>Guest book</title></head>
    <body><h1>Guest book</h1>{rows}<ul>{wrong}</ul><form>
      Name <textbox{#Name} value={name}/> Text <textbox{#Body} value={body}/> Stars <textbox{#Stars} value={given}/>
      <submit action={add (case c.Id of None => 1 | Some id => id + 1)} value="Add"/>
    </form></body>
  </xml>
and add (id : int) (r : {Name : string, Body : string, Stars : string}) : transaction page =
  if r.Name = "" || r.Body = "" then list r.Name r.Body r.Stars <xml><li>A name and a text are wanted.</li></xml>
  else
    case stars r.Stars of
      None => list r.Name r.Body r.Stars <xml><li>Stars are 1, 2 or 3.</li></xml>
    | Some n =>
        dml (INSERT INTO entry (Id, Name, Body, Stars) VALUES ({[id]}, {[r.Name]}, {[r.Body]}, {[n]}));
        main ()
