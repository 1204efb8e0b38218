(* An issue tracker: issues with a state, an owner and a weight, filters over them, and counts by state and by owner. *)

sequence issueIds
sequence noteIds
table issue : {Id : int, Title : string, State : string, Owner : string, Weight : int} PRIMARY KEY Id
table note : {Id : int, Issue : int, Author : string, Body : string} PRIMARY KEY Id

datatype state = Open | Started | Done

val perPage : int = 20

fun word (s : state) : string =
  case s of
    Open => "open"
  | Started => "started"
  | Done => "done"

fun stateOf (w : string) : state =
  case w of
    "started" => Started
  | "done" => Done
  | _ => Open

(* The states to which an issue may go from here. *)
fun next (s : state) : list state =
  case s of
    Open => Started :: Done :: []
  | Started => Done :: Open :: []
  | Done => Open :: []

(* A form gives texts, and no function reads an int out of one: the weights that there are stand here. *)
fun weightOf (w : string) : option int =
  case w of
    "1" => Some 1
  | "2" => Some 2
  | "3" => Some 3
  | _ => None

fun frame (title : string) (content : xbody) : transaction page =
  return <xml>
    <head><title>{[title]}</title></head>
    <body><h1>{[title]}</h1>{content}</body>
  </xml>

fun main () : transaction page = list "" "" 1 0

(* The issues of a state (any where it is empty) and of an owner (likewise) with at least a weight, the heaviest first: a page of them. *)
and list (state : string) (owner : string) (weight : int) (n : int) : transaction page =
  all <- oneRow (SELECT COUNT( * ) AS N FROM issue
                 WHERE ({[state = ""]} OR issue.State = {[state]}) AND ({[owner = ""]} OR issue.Owner = {[owner]})
                   AND issue.Weight >= {[weight]});
  rows <- queryX (SELECT * FROM issue
                  WHERE ({[state = ""]} OR issue.State = {[state]}) AND ({[owner = ""]} OR issue.Owner = {[owner]})
                    AND issue.Weight >= {[weight]}
                  ORDER BY issue.Weight DESC, issue.Id LIMIT {[perPage]} OFFSET {[n * perPage]})
    (fn r => <xml><tr>
      <td>{[r.Issue.Id]}</td><td><a link={view r.Issue.Id}>{[r.Issue.Title]}</a></td>
      <td>{[r.Issue.State]}</td><td>{[r.Issue.Owner]}</td><td>{[r.Issue.Weight]}</td>
    </tr></xml>);
  states <- queryX (SELECT issue.State, COUNT( * ) AS N FROM issue GROUP BY issue.State ORDER BY issue.State)
    (fn r => <xml><li><a link={list r.Issue.State owner weight 0}>{[r.Issue.State]}</a>: {[r.N]}</li></xml>);
  owners <- queryX (SELECT issue.Owner, COUNT( * ) AS N, SUM(issue.Weight) AS Sum, MAX(issue.Weight) AS Most FROM issue
                    WHERE issue.State <> 'done' GROUP BY issue.Owner ORDER BY issue.Owner)
    (fn r => <xml><tr>
      <td><a link={list state r.Issue.Owner weight 0}>{[r.Issue.Owner]}</a></td>
      <td>{[r.N]}</td><td>{[r.Sum]}</td><td>{[case r.Most of None => 0 | Some w => w]}</td>
    </tr></xml>);
  frame "Issues" <xml>
    <p>Found: {[all.N]}. <a link={list "" "" 1 0}>All</a> <a link={list state owner 2 0}>Weight 2 and more</a></p>
    <table><tr><th>Id</th><th>Title</th><th>State</th><th>Owner</th><th>Weight</th></tr>{rows}</table>
    <p>
      {if n > 0 then <xml><a link={list state owner weight (n - 1)}>Before</a></xml> else <xml/>}
      {if (n + 1) * perPage < all.N then <xml><a link={list state owner weight (n + 1)}>After</a></xml> else <xml/>}
    </p>
    <h2>By state</h2>
    <ul>{states}</ul>
    <h2>Not done, by owner</h2>
    <table><tr><th>Owner</th><th>Issues</th><th>Weight</th><th>Heaviest</th></tr>{owners}</table>
    <h2>New</h2>
    {entry "" ""}
  </xml>

(* The form of a new issue, with what was written before. *)
and entry (title : string) (weight : string) : xbody =
  <xml><form>
    <p>Title <textbox{#Title} value={title}/> Weight, 1 to 3 <textbox{#Weight} value={weight}/></p>
    <p>Your name <textbox{#Author}/></p>
    <p><textarea{#Body}/></p>
    <submit action={add} value="Add"/>
  </form></xml>

and view (id : int) : transaction page =
  found <- oneOrNoRows (SELECT * FROM issue WHERE issue.Id = {[id]});
  notes <- queryX (SELECT * FROM note WHERE note.Issue = {[id]} ORDER BY note.Id)
    (fn r => <xml><h4>{[r.Note.Author]}</h4><pre>{[r.Note.Body]}</pre></xml>);
  case found of
    None => frame "No such issue" <xml><p><a link={main ()}>To the list</a></p></xml>
  | Some r => frame (show id ^ ". " ^ r.Issue.Title) <xml>
      <p>{[r.Issue.State]}, weight {[r.Issue.Weight]}, owned by {[r.Issue.Owner]}. <a link={main ()}>To the list</a></p>
      {buttons id (next (stateOf r.Issue.State))}
      <form>Owner <textbox{#Owner} value={r.Issue.Owner}/> <submit action={assign id} value="Assign"/></form>
      {notes}
      <form><p>Your name <textbox{#Author}/></p><p><textarea{#Body}/></p><submit action={comment id} value="Comment"/></form>
    </xml>

(* A button for each state of a list. *)
and buttons (id : int) (states : list state) : xbody =
  case states of
    [] => <xml/>
  | s :: rest => <xml><form><submit action={move id (word s)} value={word s}/></form>{buttons id rest}</xml>

and add (r : {Title : string, Weight : string, Author : string, Body : string}) : transaction page =
  case weightOf r.Weight of
    None => frame "The weight is 1, 2 or 3" (entry r.Title "")
  | Some weight =>
      if r.Title = "" then frame "An issue has a title" (entry "" r.Weight)
      else (
        id <- nextval issueIds;
        dml (INSERT INTO issue (Id, Title, State, Owner, Weight) VALUES ({[id]}, {[r.Title]}, {[word Open]}, 'nobody', {[weight]}));
        put id r.Author r.Body;
        view id)

and put (id : int) (author : string) (body : string) : transaction unit =
  n <- nextval noteIds;
  dml (INSERT INTO note (Id, Issue, Author, Body) VALUES ({[n]}, {[id]}, {[author]}, {[body]}))

and comment (id : int) (r : {Author : string, Body : string}) : transaction page =
  _ <- oneRow (SELECT issue.Id FROM issue WHERE issue.Id = {[id]});
  put id r.Author r.Body;
  view id

and assign (id : int) (r : {Owner : string}) : transaction page =
  dml (UPDATE issue SET Owner = {[if r.Owner = "" then "nobody" else r.Owner]} WHERE Id = {[id]});
  view id

(* What the path says is brought to a state that there is before it is kept. *)
and move (id : int) (state : string) (u : unit) : transaction page =
  dml (UPDATE issue SET State = {[word (stateOf state)]} WHERE Id = {[id]});
  view id
