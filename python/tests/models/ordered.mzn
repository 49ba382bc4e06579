include "increasing.mzn";
include "decreasing.mzn";
array[1..4] of var 0..3: a;
array[1..3] of var 0..3: b;
constraint increasing(a) /\ decreasing(b) /\ sum(a) = sum(b) /\ a[4] = b[1] + 1;
solve satisfy;
