{ A sequence is a procedure from indices to parts, with its length as a field; a string is the
  sequence of its characters. It writes 30, 3 and hi. }
let s == seq(10, 20, 30), t == "hi" in
(putint (s 2); putint s.len; putchar (t 0); putchar (t 1))
