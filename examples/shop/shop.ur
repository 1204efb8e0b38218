(* A shop: goods with a price and a stock, and orders. Both forms, and the rows of both tables, are made by the folds of module forms. *)

sequence goodIds
sequence orderIds
table good : {Id : int, Name : string, Price : int, Stock : int} PRIMARY KEY Id
table sale : {Id : int, Good : int, Customer : string, Street : string, Amount : int, Total : int} PRIMARY KEY Id

fun money (cents : int) : string =
  show (cents / 100) ^ (if cents % 100 < 10 then ".0" else ".") ^ show (cents % 100)

con goodRow :: {Type} = [Name = string, Price = int, Stock = int]
val goodFields : Forms.fields goodRow =
  {Name = {Label = "Name", Rule = "some text", Show = Forms.same, Read = Forms.filled},
   Price = {Label = "Price in cents", Rule = "a number", Show = fn (n : int) => show n, Read = Forms.int},
   Stock = {Label = "Stock", Rule = "a number", Show = fn (n : int) => show n, Read = Forms.int}}

con orderRow :: {Type} = [Customer = string, Street = string, Amount = int]
val orderFields : Forms.fields orderRow =
  {Customer = {Label = "Your name", Rule = "some text", Show = Forms.same, Read = Forms.filled},
   Street = {Label = "Street", Rule = "some text", Show = Forms.same, Read = Forms.filled},
   Amount = {Label = "Amount", Rule = "a number", Show = fn (n : int) => show n, Read = Forms.int}}

fun frame (title : string) (content : xbody) : transaction page =
  return <xml>
    <head><title>{[title]}</title></head>
    <body><h1>{[title]}</h1>{content}</body>
  </xml>

fun main () : transaction page =
  rows <- queryX (SELECT * FROM good ORDER BY good.Name, good.Id)
    (fn r => <xml><tr>
      <td><a link={offer r.Good.Id}>{[r.Good.Name]}</a></td>
      <td>{[money r.Good.Price]}</td><td>{[r.Good.Stock]}</td><td><a link={edit r.Good.Id}>Edit</a></td>
    </tr></xml>);
  frame "Shop" <xml>
    <table><tr><th>Name</th><th>Price</th><th>Stock</th><th></th></tr>{rows}</table>
    <p><a link={orders ()}>Orders</a></p>
    <h2>A new good</h2>
    <form>{Forms.inputs [goodRow] goodFields (Forms.blank [goodRow] ())}<submit action={add} value="Add"/></form>
  </xml>

and offer (id : int) : transaction page =
  order id (Forms.blank [orderRow] ()) <xml/>

(* The form of an order, with what was written before and what is wrong with it. *)
and order (id : int) (old : Forms.texts orderRow) (wrong : xbody) : transaction page =
  g <- oneRow (SELECT * FROM good WHERE good.Id = {[id]});
  frame g.Good.Name <xml>
    <p>{[money g.Good.Price]}, {[g.Good.Stock]} in stock. <a link={main ()}>To the shop</a></p>
    <ul>{wrong}</ul>
    <form>{Forms.inputs [orderRow] orderFields old}<submit action={buy id} value="Order"/></form>
  </xml>

and buy (id : int) (r : Forms.texts orderRow) : transaction page =
  case Forms.parsed [orderRow] orderFields r of
    None => order id r (Forms.faults [orderRow] orderFields r)
  | Some o =>
      g <- oneRow (SELECT * FROM good WHERE good.Id = {[id]});
      if o.Amount = 0 || o.Amount > g.Good.Stock then
        order id r <xml><li>{[g.Good.Stock]} can be ordered</li></xml>
      else (
        n <- nextval orderIds;
        dml (INSERT INTO sale (Id, Good, Customer, Street, Amount, Total)
             VALUES ({[n]}, {[id]}, {[o.Customer]}, {[o.Street]}, {[o.Amount]}, {[o.Amount * g.Good.Price]}));
        dml (UPDATE good SET Stock = Stock - {[o.Amount]} WHERE Id = {[id]});
        frame "Thank you" <xml><p>{[money (o.Amount * g.Good.Price)]} to pay. <a link={main ()}>To the shop</a></p></xml>)

and orders () : transaction page =
  rows <- queryX (SELECT good.Name, sale.Amount, sale.Customer, sale.Street, sale.Total
                  FROM sale JOIN good ON sale.Good = good.Id ORDER BY sale.Id DESC)
    (fn r => <xml><tr><td>{[r.Good.Name]}</td>{Forms.cells [orderRow] orderFields (r.Sale -- #Total)}<td>{[money r.Sale.Total]}</td></tr></xml>);
  sums <- queryX (SELECT good.Name, COUNT( * ) AS N, SUM(sale.Total) AS Total
                  FROM sale JOIN good ON sale.Good = good.Id GROUP BY good.Id, good.Name ORDER BY good.Name)
    (fn r => <xml><li>{[r.Good.Name]}: {[r.N]} for {[money r.Total]}</li></xml>);
  frame "Orders" <xml>
    <table>{rows}</table>
    <ul>{sums}</ul>
    <p><a link={main ()}>To the shop</a></p>
  </xml>

and edit (id : int) : transaction page =
  g <- oneRow (SELECT good.Name, good.Price, good.Stock FROM good WHERE good.Id = {[id]});
  change id (Forms.shown [goodRow] goodFields g.Good) <xml/>

and change (id : int) (old : Forms.texts goodRow) (wrong : xbody) : transaction page =
  frame "Edit" <xml>
    <ul>{wrong}</ul>
    <form>{Forms.inputs [goodRow] goodFields old}<submit action={save id} value="Save"/><submit action={drop id} value="Delete"/></form>
  </xml>

and add (r : Forms.texts goodRow) : transaction page =
  case Forms.parsed [goodRow] goodFields r of
    None => frame "Not added" <xml>
        <ul>{Forms.faults [goodRow] goodFields r}</ul>
        <form>{Forms.inputs [goodRow] goodFields r}<submit action={add} value="Add"/></form>
      </xml>
  | Some g =>
      id <- nextval goodIds;
      dml (INSERT INTO good (Id, Name, Price, Stock) VALUES ({[id]}, {[g.Name]}, {[g.Price]}, {[g.Stock]}));
      main ()

and save (id : int) (r : Forms.texts goodRow) : transaction page =
  case Forms.parsed [goodRow] goodFields r of
    None => change id r (Forms.faults [goodRow] goodFields r)
  | Some g =>
      dml (UPDATE good SET Name = {[g.Name]}, Price = {[g.Price]}, Stock = {[g.Stock]} WHERE Id = {[id]});
      main ()

(* A good that was ordered stays, since its orders name it. *)
and drop (id : int) (r : Forms.texts goodRow) : transaction page =
  c <- oneRow (SELECT COUNT( * ) AS N FROM sale WHERE sale.Good = {[id]});
  if c.N > 0 then change id r <xml><li>Orders name it: {[c.N]}</li></xml>
  else (dml (DELETE FROM good WHERE Id = {[id]}); main ())
