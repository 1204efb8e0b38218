(* Forms made from a record that says of each field how it is called, what may stand in it, and how it is shown and read. *)

con text :: Type -> Type = fn t :: Type => string
con field :: Type -> Type = fn t :: Type => {Label : string, Rule : string, Show : t -> string, Read : string -> option t}
con texts :: {Type} -> Type = fn r :: {Type} => $(map text r)
con fields :: {Type} -> Type = fn r :: {Type} => $(map field r)

(* No text in any field. *)
fun blank [r :: {Type}] () : texts r =
  fold [texts]
    (fn [nm :: Name] [t :: Type] [rest :: {Type}] [[nm] ~ rest] (acc : texts rest) => {nm = ""} ++ acc)
    {}
    [r]

(* The texts of a record. *)
fun shown [r :: {Type}] (fs : fields r) (v : $r) : texts r =
  fold [fn s :: {Type} => fields s -> $s -> texts s]
    (fn [nm :: Name] [t :: Type] [rest :: {Type}] [[nm] ~ rest] (acc : fields rest -> $rest -> texts rest) =>
       fn (fs : fields ([nm = t] ++ rest)) (v : $([nm = t] ++ rest)) =>
         {nm = fs.nm.Show v.nm} ++ acc (fs -- nm) (v -- nm))
    (fn (fs : fields []) (v : $[]) => {})
    [r] fs v

(* A line with a label and a textbox for each field, in order of the names. *)
fun inputs [r :: {Type}] (fs : fields r) (old : texts r) : xml form [] (map text r) =
  fold [fn s :: {Type} => fields s -> texts s -> xml form [] (map text s)]
    (fn [nm :: Name] [t :: Type] [rest :: {Type}] [[nm] ~ rest] (acc : fields rest -> texts rest -> xml form [] (map text rest)) =>
       fn (fs : fields ([nm = t] ++ rest)) (old : texts ([nm = t] ++ rest)) =>
         <xml><p>{[fs.nm.Label]} <textbox{nm} value={old.nm}/></p>{acc (fs -- nm) (old -- nm)}</xml>)
    (fn (fs : fields []) (old : texts []) => <xml/>)
    [r] fs old

(* The record that the texts of a form stand for, where each of them is read. *)
fun parsed [r :: {Type}] (fs : fields r) (given : texts r) : option $r =
  fold [fn s :: {Type} => fields s -> texts s -> option $s]
    (fn [nm :: Name] [t :: Type] [rest :: {Type}] [[nm] ~ rest] (acc : fields rest -> texts rest -> option $rest) =>
       fn (fs : fields ([nm = t] ++ rest)) (given : texts ([nm = t] ++ rest)) =>
         case fs.nm.Read given.nm of
           None => None
         | Some x =>
             case acc (fs -- nm) (given -- nm) of
               None => None
             | Some others => Some ({nm = x} ++ others))
    (fn (fs : fields []) (given : texts []) => Some {})
    [r] fs given

(* An item for each field that is not read. *)
fun faults [r :: {Type}] (fs : fields r) (given : texts r) : xbody =
  fold [fn s :: {Type} => fields s -> texts s -> xbody]
    (fn [nm :: Name] [t :: Type] [rest :: {Type}] [[nm] ~ rest] (acc : fields rest -> texts rest -> xbody) =>
       fn (fs : fields ([nm = t] ++ rest)) (given : texts ([nm = t] ++ rest)) =>
         <xml>{case fs.nm.Read given.nm of
             None => <xml><li>{[fs.nm.Label]}: {[fs.nm.Rule]}</li></xml>
           | Some x => <xml/>}{acc (fs -- nm) (given -- nm)}</xml>)
    (fn (fs : fields []) (given : texts []) => <xml/>)
    [r] fs given

(* The cells of a record. *)
fun cells [r :: {Type}] (fs : fields r) (v : $r) : xtr =
  fold [fn s :: {Type} => fields s -> $s -> xtr]
    (fn [nm :: Name] [t :: Type] [rest :: {Type}] [[nm] ~ rest] (acc : fields rest -> $rest -> xtr) =>
       fn (fs : fields ([nm = t] ++ rest)) (v : $([nm = t] ++ rest)) =>
         <xml><td>{[fs.nm.Show v.nm]}</td>{acc (fs -- nm) (v -- nm)}</xml>)
    (fn (fs : fields []) (v : $[]) => <xml/>)
    [r] fs v

(* An int of at most nine digits is read digit by digit: of the texts that are not below m, those below `m:` begin with the digits of m. *)
fun digits (s : string) (n : int) (d : int) : option int =
  if d > 9 || n > 99999999 then None
  else
    let val m : int = n * 10 + d in
      if show m = s then Some m
      else if show m < s && s < show m ^ ":" then digits s m 0
      else digits s n (d + 1)
    end

fun int (s : string) : option int = if s = "0" then Some 0 else digits s 0 1
fun filled (s : string) : option string = if s = "" then None else Some s
fun same (s : string) : string = s
