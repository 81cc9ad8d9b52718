{ Inner names hide outer ones, and the definitions of one `let` don't see each other: the `a` in
  `b == a + 1` is the outer one. It writes 2 and 10. }
let a == 1 in let a == 10, b == a + 1 in (putint b; putint a)
