% No square leaves 2 or 3 by 5.
var 0..12: x;
var 2..3: r;
constraint x * x mod 5 = r;
solve satisfy;
