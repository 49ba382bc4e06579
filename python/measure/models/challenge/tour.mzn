% The shortest tour of n towns.
include "circuit.mzn";
int: n;
array[1..n] of int: x = [(i * i * 17 + 5 * i) mod 41 | i in 1..n];
array[1..n] of int: y = [(i * i * i * 7 + 11 * i) mod 37 | i in 1..n];
array[1..n, 1..n] of int: far = array2d(1..n, 1..n, [abs(x[i] - x[j]) + abs(y[i] - y[j]) | i, j in 1..n]);
array[1..n] of var 1..n: next;
constraint circuit(next);
solve minimize sum(i in 1..n)(far[i, next[i]]);
