{ Call by name at work: `e` is written `i*i` at the call and is evaluated anew for each value
  that the loop gives to `i`, so the sum is that of the squares up to 100. It writes 385. }
let sum == \i:intvar. \n:int. \e:int. \r:intacc.
    new s:int := 0 in (i := 1; while i <= n do (s := s + e; i := i + 1); r := s)
in new i:int := 0 in new r:int := 0 in (sum i 10 (i*i) r; putint r)
