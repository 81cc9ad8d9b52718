{ `letrec` declares the types of its names before it defines them, and the definitions may use
  themselves and each other. It writes 120 and true. }
letrec product : int -> int, even : int -> bool, odd : int -> bool
where product == \n:int. if n = 0 then 1 else n * product (n - 1),
      even == \n:int. if n = 0 then true else odd (n - 1),
      odd == \n:int. if n = 0 then false else even (n - 1)
in (putint (product 5); putbool (even 10))
