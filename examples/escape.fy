{ `escape` names the way out of a command: when `e` is run, the rest in parentheses is left out. It writes 13. }
(escape e in (putint 1; e; putint 2)); putint 3
