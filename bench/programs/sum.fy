{ The numbers below a million, added up in a loop: 499999500000. }
new turn: int := 0 in new total: int := 0 in
(while turn < 1000000 do (total := total + turn; turn := turn + 1);
 putint total)
