include "all_different.mzn";
array[1..9, 1..9] of 0..9: clue = [|
0,0,0,0,0,0,0,1,0|4,0,0,0,0,0,0,0,0|0,2,0,0,0,0,0,0,0|0,0,0,0,5,0,4,0,7|0,0,8,0,0,0,3,0,0|0,0,1,0,9,0,0,0,0|3,0,0,4,0,0,2,0,0|0,5,0,1,0,0,0,0,0|0,0,0,8,0,6,0,0,0|];
array[1..9, 1..9] of var 1..9: s;
constraint forall(i, j in 1..9 where clue[i, j] > 0)(s[i, j] = clue[i, j]);
constraint forall(i in 1..9)(all_different([s[i, j] | j in 1..9]) /\ all_different([s[j, i] | j in 1..9]));
constraint forall(a, b in {1, 4, 7})(all_different([s[a + i, b + j] | i, j in 0..2]));
solve :: int_search([s[i,j]|i,j in 1..9], first_fail, indomain_min, complete) satisfy;
