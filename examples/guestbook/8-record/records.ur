con column :: Type -> Type = fn t :: Type => {Title : string, Show : t -> string}
con columns :: {Type} -> Type = fn r :: {Type} => $(map column r)

fun heads [r :: {Type}] (cs : columns r) : xtr =
  fold [fn s :: {Type} => columns s -> xtr]
    (fn [nm :: Name] [t :: Type] [rest :: {Type}] [[nm] ~ rest] (acc : columns rest -> xtr) =>
       fn (cs : columns ([nm = t] ++ rest)) =>
         <xml><th>{[cs.nm.Title]}</th>{acc (cs -- nm)}</xml>)
    (fn (cs : columns []) => <xml/>)
    [r] cs

fun cells [r :: {Type}] (cs : columns r) (v : $r) : xtr =
  fold [fn s :: {Type} => columns s -> $s -> xtr]
    (fn [nm :: Name] [t :: Type] [rest :: {Type}] [[nm] ~ rest] (acc : columns rest -> $rest -> xtr) =>
       fn (cs : columns ([nm = t] ++ rest)) (v : $([nm = t] ++ rest)) =>
         <xml><td>{[cs.nm.Show v.nm]}</td>{acc (cs -- nm) (v -- nm)}</xml>)
    (fn (cs : columns []) (v : $[]) => <xml/>)
    [r] cs v
