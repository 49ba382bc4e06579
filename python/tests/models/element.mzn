array[1..6] of int: squares = [1, 4, 9, 16, 25, 36];
var 1..6: i;
var 1..6: j;
constraint squares[i] + squares[j] = 25 \/ squares[i] = 2 * squares[j] + 1;
solve satisfy;
