% A circle of what is less than the next, over a million values.
var 0..1000000: x;
var 0..1000000: y;
var 0..1000000: z;
constraint x < y;
constraint y < z;
constraint z < x;
solve satisfy;
