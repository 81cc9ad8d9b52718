{ A merge joins meanings of different kinds under one name: here a number, a procedure and a field.
  The demand decides which of them is taken. It writes 7, 2 and 2. }
let f == (7, \x:int. x+1, len == 2) in (putint f; putint (f 1); putint f.len)
