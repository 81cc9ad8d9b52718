{ What an assignment does can be written down: `accept` says what to do with the value. Here `w` is
  evaluated as `v` and assigned to as twice the value. It writes 8. }
new v:int := 0 in let w == (v, accept x:int in v := x*2) in (w := 4; putint w)
