{ The 16th Fibonacci number, by a recursion whose parameter is by name all the way: 987. }
letrec fib: int -> int
where fib == \n: int. if n < 2 then n else fib (n - 1) + fib (n - 2)
in putint (fib 16)
