{ How many primes there are up to 10,000, by the sieve of Eratosthenes: 1229. }
newintseq 10001 (\crossed: intvarseq.
    new i: int := 2 in new k: int := 0 in new count: int := 0 in (
        while i < crossed.len do (
            if crossed i = 0 then (
                count := count + 1;
                k := i * i;
                while k < crossed.len do (crossed k := 1; k := k + i)
            ) else skip;
            i := i + 1);
        putint count))
