% How long tasks take, and how much they need, is open.
include "cumulative.mzn";
array[1..3] of var 0..3: start;
array[1..3] of var 0..2: takes;
array[1..3] of var 1..2: needs;
constraint cumulative(start, takes, needs, 2);
constraint sum(takes) = 4 /\ sum(needs) >= 5;
constraint forall(i in 1..3)(start[i] + takes[i] <= 3);
solve satisfy;
