include "among.mzn";
include "at_most.mzn";
array[1..4] of var 1..5: x;
var 0..4: n;
constraint among(n, x, {2, 4}) /\ n >= 3;
constraint at_most(2, x, 2) /\ x[1] < x[2] /\ x[2] <= x[3];
solve satisfy;
