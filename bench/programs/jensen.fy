{ Jensen's device in itself: the sum over i of the sum over j of i * j, both to 400, with the term by name. The inner sum is
  a command before the outer term, which is the variable that it assigns to: 6432040000. }
let sum == \index: intvar. \last: int. \before: comm. \term: int. \result: intacc.
    new total: int := 0 in
    (index := 1;
     while index <= last do (before; total := total + term; index := index + 1);
     result := total)
in
new i: int := 0 in new j: int := 0 in new inner: int := 0 in new outer: int := 0 in
(sum i 400 (sum j 400 skip (i * j) inner) inner outer;
 putint outer)
