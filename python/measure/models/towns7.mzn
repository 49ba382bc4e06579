include "circuit.mzn";
int: n=7;
array[1..n,1..n] of int: d = array2d(1..n,1..n,[ (i*i*7+j*j*7+13*i*j) mod 37 + 3 | i,j in 1..n]);
array[1..n] of var 1..n: next;
constraint circuit(next);
solve minimize sum(i in 1..n)(d[i,next[i]]);
