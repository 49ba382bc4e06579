% Courses in periods: the heaviest period is as light as can be.
include "bin_packing_load.mzn";
include "global_cardinality_low_up.mzn";
int: courses; int: periods;
array[1..courses] of int: credits;
% The first of two courses comes before the other.
array[int, 1..2] of int: before;
int: fewest; int: most_courses;
array[1..courses] of var 1..periods: period;
array[1..periods] of var 0..sum(credits): load;
var 0..sum(credits): most;
constraint forall(k in index_set_1of2(before))(period[before[k, 1]] < period[before[k, 2]]);
constraint bin_packing_load(load, period, credits);
constraint global_cardinality_low_up(period, [i | i in 1..periods],
  [fewest | i in 1..periods], [most_courses | i in 1..periods]);
constraint most = max(load);
solve :: int_search(period, first_fail, indomain_min, complete) minimize most;
