val main : unit -> transaction page
val list : string -> string -> int -> int -> transaction page
