val main : unit -> transaction page
val under : int -> transaction page
