include "all_different.mzn";
array[1..2, 1..2] of var 1..4: place;
constraint forall(k in 1..2)(place[k, 2] = place[k, 1] + k + 1);
constraint all_different([place[k, i] | k in 1..2, i in 1..2]);
solve satisfy;
