% Five tasks that need some of three workers.
include "cumulative.mzn";
array[1..5] of int: takes = [3, 4, 2, 2, 3];
array[1..5] of int: needs = [2, 1, 3, 1, 2];
array[1..5] of var 0..14: start;
var 0..14: end;
constraint cumulative(start, takes, needs, 3);
constraint forall(i in 1..5)(start[i] + takes[i] <= end);
constraint start[1] + 3 <= start[3];
solve minimize end;
