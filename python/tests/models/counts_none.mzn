include "global_cardinality.mzn";
array[1..6] of var 1..3: x;
constraint global_cardinality(x, [1, 2, 3], [2, 2, 2]);
constraint forall(i in 1..5)(x[i] <= x[i + 1]);
constraint x[3] = 1;
solve satisfy;
