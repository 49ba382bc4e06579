% Quotients and remainders on both sides of zero.
var -7..7: x;
var -3..3: y;
constraint x div y = -2;
constraint x mod y != 0;
solve satisfy;
