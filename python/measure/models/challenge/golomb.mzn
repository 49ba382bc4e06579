% Marks of a ruler: the distances of any two differ.
include "all_different.mzn";
int: n;
array[1..n] of var 0..n * n: mark;
array[1..n * (n - 1) div 2] of var 1..n * n: gap = [mark[j] - mark[i] | i, j in 1..n where i < j];
constraint mark[1] = 0 /\ forall(i in 1..n - 1)(mark[i] < mark[i + 1]);
constraint all_different(gap) /\ gap[1] < gap[n * (n - 1) div 2];
solve :: int_search(mark, input_order, indomain_min, complete) minimize mark[n];
