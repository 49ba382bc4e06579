include "bin_packing.mzn";
array[1..4] of var 1..2: bin;
constraint bin_packing(6, bin, [4, 4, 3, 1]);
solve satisfy;
