include "inverse.mzn";
array[1..4] of var 1..4: f;
array[1..4] of var 1..4: g;
constraint inverse(f, g) /\ f[1] > f[2] /\ g[3] = 1;
solve satisfy;
