{ How many primes there are below 10,000, by trial division: 1229. }
new number: int := 2 in new count: int := 0 in
(while number < 10000 do
   (new divisor: int := 2 in new prime: bool := true in
      (while prime and divisor * divisor <= number do
         (if number rem divisor = 0 then prime := false else divisor := divisor + 1);
       if prime then count := count + 1 else skip);
    number := number + 1);
 putint count)
