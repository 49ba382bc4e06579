include "all_different.mzn";
array[1..4, 1..4] of var 1..4: s;
constraint forall(i in 1..4)(
    all_different([s[i, j] | j in 1..4]) /\ all_different([s[j, i] | j in 1..4])
);
constraint forall(a, b in {1, 3})(all_different([s[a + i, b + j] | i, j in 0..1]));
constraint s[1, 1] = 1 /\ s[2, 3] = 2 /\ s[4, 4] = 3;
solve satisfy;
