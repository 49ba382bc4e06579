% Five pigeons in four holes.
include "all_different.mzn";
array[1..5] of var 1..4: hole;
constraint all_different(hole);
solve satisfy;
