% A sum, back to one of what is added.
var 3..5: x;
var 0..100: y;
var 10..10: z;
constraint x + y = z;
solve satisfy;
