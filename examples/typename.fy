{ A type may have a name. A counter here is a record of a command and a value, and `make` hands one
  to whoever uses it. It writes 2. }
lettype counter == (step : comm) & (count : int) in
let make == \user: counter -> comm.
    new n:int := 0 in user (step == n := n + 1, count == n)
in make (\c: counter. (c.step; c.step; putint c.count))
