val main : unit -> transaction page
val orders : unit -> transaction page
