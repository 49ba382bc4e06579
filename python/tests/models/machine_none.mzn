include "disjunctive.mzn";
array[1..4] of int: takes = [3, 1, 2, 2];
array[1..4] of var 0..9: start;
constraint :: "machine" disjunctive(start, takes);
constraint :: "due" forall(i in 1..4)(start[i] + takes[i] <= 8);
constraint :: "delivery" start[2] >= 2 /\ start[1] >= 1 /\ start[3] >= 1;
constraint :: "last" start[4] >= 4;
solve satisfy;
