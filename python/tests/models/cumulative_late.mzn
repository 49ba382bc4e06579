% Four tasks of three workers, by a day that is too soon.
include "cumulative.mzn";
array[1..4] of int: takes = [3, 4, 2, 2];
array[1..4] of int: needs = [2, 1, 3, 2];
array[1..4] of var 0..6: start;
constraint :: "workers" cumulative(start, takes, needs, 3);
constraint :: "ends" forall(i in 1..4)(start[i] + takes[i] <= 6);
constraint start[1] + 3 <= start[3];
solve satisfy;
