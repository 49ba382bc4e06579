include "all_different.mzn";
int: n=6;
array[1..n] of var 0..20: mark;
constraint mark[1] = 0 /\ forall(i in 1..n-1)(mark[i] < mark[i + 1]);
constraint all_different([mark[j] - mark[i] | i, j in 1..n where i < j]);
solve :: int_search(mark, input_order, indomain_min, complete) minimize mark[n];
