include "all_different.mzn";
array[1..8] of var 1..7: hole;
constraint all_different(hole);
solve satisfy;
