% A Golomb ruler of four marks.
include "all_different.mzn";
array[1..4] of var 0..9: mark;
constraint mark[1] = 0 /\ forall(i in 1..3)(mark[i] < mark[i + 1]);
constraint all_different([mark[j] - mark[i] | i, j in 1..4 where i < j]);
solve minimize mark[4];
