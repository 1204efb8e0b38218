val main : unit -> transaction page
