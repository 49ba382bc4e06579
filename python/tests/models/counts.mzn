include "count.mzn";
array[1..5] of var 1..3: x;
var 1..3: y;
constraint count(x, y) = 3;
constraint count_leq(x, 2, 1) /\ count_geq(x, 1, 1) /\ count_neq(x, 3, 2);
constraint x[1] = 3 /\ x[2] <= x[3] /\ x[3] <= x[4];
solve satisfy;
