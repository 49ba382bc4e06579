include "nvalue.mzn";
array[1..4] of var 1..4: x;
var 1..4: n;
constraint nvalue(n, x) /\ n = 2 /\ x[1] < x[2] /\ sum(x) = 9;
solve satisfy;
