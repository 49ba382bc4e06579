include "all_different.mzn";
int: n = 3;
array[1..n] of var 1..n: q;
constraint :: "columns" all_different(q);
constraint :: "up" all_different([q[i] + i | i in 1..n]);
constraint :: "down" all_different([q[i] - i | i in 1..n]);
solve satisfy;
