var -9..9: x;
constraint x mod 4 = 3;
constraint x * x mod 4 = 2;
solve satisfy;
