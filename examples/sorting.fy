{ An insertion sort in a sequence of variables, as long as the input says: it reads how many numbers there are
  and then the numbers, and writes them from the least on, each on a line. A number is digits; what else stands
  between numbers is left out. `digit` is looked at again at each use, and `get` assigns to the cell of the
  index that `i` has then. }
let get == \to: intacc.
    new c: int := 0 in new v: int := 0 in
    let digit == c >= ord '0' and c <= ord '9' in (
        read c;
        while c >= 0 and not digit do read c;
        while digit do (v := 10 * v + c - ord '0'; read c);
        to := v)
in
let sort == \a: intvarseq.
    new i: int := 1 in new k: int := 0 in new x: int := 0 in
    while i < a.len do (
        k := i;
        x := a i;
        while k > 0 and a (k - 1) > x do (a k := a (k - 1); k := k - 1);
        a k := x;
        i := i + 1)
in
new n: int := 0 in (
    get n;
    newintseq n (\a: intvarseq. new i: int := 0 in (
        while i < n do (get (a i); i := i + 1);
        sort a;
        i := 0;
        while i < n do (putint (a i); putchar '\n'; i := i + 1))))
