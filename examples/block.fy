{ A command that is passed by name may leave the procedure that runs it, with its variables and its
  loop. It writes 6. }
new k:int := 1 in
let p == \c:comm. new a:int := 5 in new b:int := 6 in while true do (k := k + a; c; k := 0)
in (escape e in p e; putint k)
