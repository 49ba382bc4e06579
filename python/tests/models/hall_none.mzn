% Three that differ and have two values, one among more.
include "all_different.mzn";
array[1..5] of var 1..9: x;
constraint all_different(x);
constraint x[1] in 4..5 /\ x[3] in 4..5 /\ x[5] in 4..5;
solve satisfy;
