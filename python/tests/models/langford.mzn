% Between the two of each number k there are k others.
include "all_different.mzn";
array[1..3, 1..2] of var 1..6: place;
constraint forall(k in 1..3)(place[k, 2] = place[k, 1] + k + 1);
constraint all_different([place[k, i] | k in 1..3, i in 1..2]);
solve satisfy;
