{ The 21st Fibonacci number, by a recursion that takes its parameter's value first and gives its result to an acceptor: 10946. }
letrec fib: int -> intacc -> comm
where fib == \n: int. \result: intacc.
    new value: int := n in
    if value < 2 then result := value
    else
      new one: int := 0 in new two: int := 0 in
      (fib (value - 1) one; fib (value - 2) two; result := one + two)
in
new answer: int := 0 in (fib 21 answer; putint answer)
