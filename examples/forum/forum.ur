(* A forum: topics, the posts of each, the posts of one person, and a cookie with the name of who writes. *)

sequence topicIds
sequence postIds

(* Posts counts the posts of a topic and Last is the number of the newest: the list is ordered by it, and a query orders by columns alone. *)
table topic : {Id : int, Title : string, Author : string, Posts : int, Last : int} PRIMARY KEY Id
table post : {Id : int, Topic : int, Author : string, Body : string} PRIMARY KEY Id
cookie name : string

val perPage : int = 10

fun count (n : int) (one : string) (many : string) : string =
  show n ^ " " ^ (if n = 1 then one else many)

fun frame (title : string) (content : xbody) : transaction page =
  return <xml>
    <head><title>{[title]}</title></head>
    <body><h1>{[title]}</h1>{content}</body>
  </xml>

fun isWriter (me : option string) (author : string) : bool =
  case me of
    None => False
  | Some who => who = author

(* Who writes, or an error that ends the request: nothing of it is saved then. *)
fun writer () : transaction string =
  me <- getCookie name;
  case me of
    None => error <xml><p>Say who you are first.</p></xml>
  | Some who => return who

fun main () : transaction page = page 0

and page (n : int) : transaction page =
  me <- getCookie name;
  all <- oneRow (SELECT COUNT( * ) AS N, SUM(topic.Posts) AS Posts FROM topic);
  rows <- queryX (SELECT * FROM topic ORDER BY topic.Last DESC LIMIT {[perPage]} OFFSET {[n * perPage]})
    (fn r => <xml><tr>
      <td><a link={read r.Topic.Id 0}>{[r.Topic.Title]}</a></td>
      <td><a link={by r.Topic.Author}>{[r.Topic.Author]}</a></td>
      <td>{[count r.Topic.Posts "post" "posts"]}</td>
    </tr></xml>);
  frame "Forum" <xml>
    <p>{[count all.N "topic" "topics"]}, {[count all.Posts "post" "posts"]}.</p>
    <table><tr><th>Topic</th><th>By</th><th>Size</th></tr>{rows}</table>
    <p>
      {if n > 0 then <xml><a link={page (n - 1)}>Newer</a></xml> else <xml/>}
      {if (n + 1) * perPage < all.N then <xml><a link={page (n + 1)}>Older</a></xml> else <xml/>}
    </p>
    {case me of
       None => <xml><form>Your name <textbox{#Name}/> <submit action={sign} value="Sign"/></form></xml>
     | Some who => <xml>
         <h2>A new topic by {[who]}</h2>
         <form><p>Title <textbox{#Title}/></p><p><textarea{#Body}/></p><submit action={start} value="Start"/></form>
       </xml>}
  </xml>

and read (id : int) (n : int) : transaction page =
  me <- getCookie name;
  found <- oneOrNoRows (SELECT * FROM topic WHERE topic.Id = {[id]});
  rows <- queryX (SELECT * FROM post WHERE post.Topic = {[id]} ORDER BY post.Id LIMIT {[perPage]} OFFSET {[n * perPage]})
    (fn r => <xml>
      <h4><a link={by r.Post.Author}>{[r.Post.Author]}</a></h4>
      <pre>{[r.Post.Body]}</pre>
      {if isWriter me r.Post.Author then <xml><form><submit action={drop r.Post.Id} value="Delete"/></form></xml> else <xml/>}
    </xml>);
  case found of
    None => frame "No such topic" <xml><p><a link={main ()}>To the list</a></p></xml>
  | Some t => frame t.Topic.Title <xml>
      <p>{[count t.Topic.Posts "post" "posts"]}. <a link={main ()}>To the list</a></p>
      {rows}
      <p>
        {if n > 0 then <xml><a link={read id (n - 1)}>Before</a></xml> else <xml/>}
        {if (n + 1) * perPage < t.Topic.Posts then <xml><a link={read id (n + 1)}>After</a></xml> else <xml/>}
      </p>
      <form><p><textarea{#Body}/></p><submit action={reply id} value="Reply"/></form>
    </xml>

and by (author : string) : transaction page =
  rows <- queryX (SELECT post.Body, topic.Id, topic.Title FROM post JOIN topic ON post.Topic = topic.Id
                  WHERE post.Author = {[author]} ORDER BY post.Id DESC LIMIT 50)
    (fn r => <xml><h4>In <a link={read r.Topic.Id 0}>{[r.Topic.Title]}</a></h4><pre>{[r.Post.Body]}</pre></xml>);
  frame ("Posts by " ^ author) <xml>{rows}<p><a link={main ()}>To the list</a></p></xml>

and sign (r : {Name : string}) : transaction page =
  if r.Name = "" then
    frame "No name" <xml><form>Your name <textbox{#Name}/> <submit action={sign} value="Sign"/></form></xml>
  else (
    setCookie name {Value = r.Name, Expires = None, Secure = False};
    frame "Welcome" <xml><p>Hello, {[r.Name]}. <a link={main ()}>To the list</a></p></xml>)

and start (r : {Title : string, Body : string}) : transaction page =
  who <- writer ();
  if r.Title = "" || r.Body = "" then
    frame "Something is missing" <xml>
      <p>A topic has a title and a first post.</p>
      <form><p>Title <textbox{#Title} value={r.Title}/></p><p><textarea{#Body}/></p><submit action={start} value="Start"/></form>
      <p>What was written:</p><pre>{[r.Body]}</pre>
    </xml>
  else (
    id <- nextval topicIds;
    dml (INSERT INTO topic (Id, Title, Author, Posts, Last) VALUES ({[id]}, {[r.Title]}, {[who]}, 0, 0));
    put id who r.Body;
    read id 0)

and reply (id : int) (r : {Body : string}) : transaction page =
  who <- writer ();
  found <- oneOrNoRows (SELECT topic.Posts FROM topic WHERE topic.Id = {[id]});
  case found of
    None => error <xml><p>The topic is gone.</p></xml>
  | Some t =>
      if r.Body = "" then read id (t.Topic.Posts / perPage)
      else (put id who r.Body; read id (t.Topic.Posts / perPage))

(* Adds a post, and counts it in its topic. *)
and put (topicId : int) (who : string) (body : string) : transaction unit =
  n <- nextval postIds;
  dml (INSERT INTO post (Id, Topic, Author, Body) VALUES ({[n]}, {[topicId]}, {[who]}, {[body]}));
  dml (UPDATE topic SET Posts = Posts + 1, Last = {[n]} WHERE Id = {[topicId]})

(* The writer's own posts alone; with its last post a topic goes too. *)
and drop (id : int) (u : unit) : transaction page =
  who <- writer ();
  found <- oneOrNoRows (SELECT post.Topic FROM post WHERE post.Id = {[id]} AND post.Author = {[who]});
  case found of
    None => error <xml><p>The post is not yours.</p></xml>
  | Some p =>
      dml (DELETE FROM post WHERE Id = {[id]});
      dml (UPDATE topic SET Posts = Posts - 1 WHERE Id = {[p.Post.Topic]});
      dml (DELETE FROM topic WHERE Id = {[p.Post.Topic]} AND Posts = 0);
      read p.Post.Topic 0
