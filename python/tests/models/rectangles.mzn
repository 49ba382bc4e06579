% Three rectangles in a square of four.
include "diffn.mzn";
array[1..3] of int: wide = [3, 1, 2];
array[1..3] of int: high = [2, 4, 2];
array[1..3] of var 0..3: x;
array[1..3] of var 0..3: y;
constraint diffn(x, y, wide, high);
constraint forall(i in 1..3)(x[i] + wide[i] <= 4 /\ y[i] + high[i] <= 4);
solve satisfy;
