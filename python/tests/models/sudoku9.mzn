% A Sudoku of 30 clues.
include "all_different.mzn";
array[1..9, 1..9] of 0..9: clue = [|
    5, 3, 0, 0, 7, 0, 0, 0, 0| 6, 0, 0, 1, 9, 5, 0, 0, 0| 0, 9, 8, 0, 0, 0, 0, 6, 0|
    8, 0, 0, 0, 6, 0, 0, 0, 3| 4, 0, 0, 8, 0, 3, 0, 0, 1| 7, 0, 0, 0, 2, 0, 0, 0, 6|
    0, 6, 0, 0, 0, 0, 2, 8, 0| 0, 0, 0, 4, 1, 9, 0, 0, 5| 0, 0, 0, 0, 8, 0, 0, 7, 9|];
array[1..9, 1..9] of var 1..9: s;
constraint forall(i, j in 1..9 where clue[i, j] > 0)(s[i, j] = clue[i, j]);
constraint forall(i in 1..9)(
    all_different([s[i, j] | j in 1..9]) /\ all_different([s[j, i] | j in 1..9])
);
constraint forall(a, b in {1, 4, 7})(all_different([s[a + i, b + j] | i, j in 0..2]));
solve satisfy;
