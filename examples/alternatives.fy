{ One procedure for several types: an abstraction lists the types that its parameter may have, and
  `id` takes an integer, a truth value or a variable. A variable is what can be evaluated and what
  can be assigned to, so `id v` may stand on both sides of `:=`. It writes 51. }
let id == \x: int | bool | intvar. x in
new v:int := 1 in (id v := 5; putint (id v); if id true then putint 1 else putint 0)
