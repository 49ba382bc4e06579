include "global_cardinality.mzn";
array[1..5] of var 1..3: x;
array[1..3] of var 0..5: many;
constraint global_cardinality(x, [1, 2, 3], many);
constraint many[1] > many[2] /\ many[2] > many[3] /\ x[1] = 2;
solve satisfy;
