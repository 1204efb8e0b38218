val list : string -> transaction page
