% The magic squares of three by three.
include "all_different.mzn";
array[1..3, 1..3] of var 1..9: m;
constraint all_different([m[i, j] | i, j in 1..3]);
constraint forall(i in 1..3)(sum(j in 1..3)(m[i, j]) = 15 /\ sum(j in 1..3)(m[j, i]) = 15);
constraint m[1, 1] + m[2, 2] + m[3, 3] = 15 /\ m[1, 3] + m[2, 2] + m[3, 1] = 15;
solve satisfy;
