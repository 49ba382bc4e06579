% The shortest way around five towns.
include "circuit.mzn";
array[1..5, 1..5] of int: far = [|0, 3, 9, 8, 4| 3, 0, 5, 7, 6| 9, 5, 0, 2, 8|
    8, 7, 2, 0, 3| 4, 6, 8, 3, 0|];
array[1..5] of var 1..5: next;
var 0..60: way;
constraint circuit(next);
constraint way = sum(i in 1..5)(far[i, next[i]]);
solve minimize way;
