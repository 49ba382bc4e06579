% Jobs on machines: the last one ends as soon as can be.
include "disjunctive.mzn";
int: jobs; int: machines;
% The machines of a job, in order, and how long it takes there.
array[1..jobs, 1..machines] of int: machine;
array[1..jobs, 1..machines] of int: takes;
array[1..jobs, 1..machines] of var 0..sum(takes): start;
var 0..sum(takes): end;
constraint forall(j in 1..jobs, k in 1..machines - 1)(start[j, k] + takes[j, k] <= start[j, k + 1]);
constraint forall(j in 1..jobs)(start[j, machines] + takes[j, machines] <= end);
constraint forall(m in 1..machines)(
  disjunctive([start[j, k] | j in 1..jobs, k in 1..machines where machine[j, k] = m],
              [takes[j, k] | j in 1..jobs, k in 1..machines where machine[j, k] = m]));
solve minimize end;
