include "all_different.mzn";
int: n = 8;
array[1..n] of var 1..n: q;
constraint all_different(q);
constraint all_different([q[i] + i | i in 1..n]);
constraint all_different([q[i] - i | i in 1..n]);
solve :: int_search(q, first_fail, indomain_min, complete) satisfy;
