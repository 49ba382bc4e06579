% Shifts of a week: no work for more than two days in a row, and two days off at the most in a row.
include "regular.mzn";
array[1..6] of var 1..2: day;
constraint regular(day, 5, 2, [|2, 4|3, 4|0, 4|2, 5|2, 0|], 1, 1..5);
constraint sum(i in 1..6)(day[i] = 1) = 4;
solve satisfy;
