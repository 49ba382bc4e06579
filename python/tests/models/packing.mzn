include "bin_packing.mzn";
array[1..5] of var 1..3: bin;
constraint bin_packing(6, bin, [5, 4, 3, 2, 2]);
constraint bin[1] <= bin[2] /\ bin[4] <= bin[5];
solve satisfy;
