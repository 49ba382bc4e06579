% Tasks, some resources, and what comes before what: the last one ends as soon as can be.
include "cumulative.mzn";
int: n; int: resources; int: days;
array[1..n] of int: takes;
array[1..resources, 1..n] of int: needs;
array[1..resources] of int: there;
% The first of two tasks ends before the other begins.
array[int, 1..2] of int: before;
array[1..n] of var 0..days: start;
var 0..days: end;
constraint forall(r in 1..resources)(cumulative(start, takes, [needs[r, i] | i in 1..n], there[r]));
constraint forall(i in 1..n)(start[i] + takes[i] <= end);
constraint forall(k in index_set_1of2(before))(
  start[before[k, 1]] + takes[before[k, 1]] <= start[before[k, 2]]);
solve :: int_search(start, smallest, indomain_min, complete) minimize end;
