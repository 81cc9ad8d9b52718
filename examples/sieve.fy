{ A sequence of variables: the sieve of Eratosthenes keeps in a cell for each number whether it is crossed out.
  It writes the primes up to 30, each on a line. }
let sieve == \n: int. \found: int -> comm.
    newintseq (n + 1) (\crossed: intvarseq.
        new i: int := 2 in new k: int := 0 in
        while i <= n do (
            if crossed i = 0 then (
                found i;
                k := i * i;
                while k <= n do (crossed k := 1; k := k + i)
            ) else skip;
            i := i + 1
        ))
in sieve 30 (\p: int. (putint p; putchar '\n'))
