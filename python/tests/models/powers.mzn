var 0..4: x;
var 0..3: y;
constraint pow(x, y) = 4 \/ pow(x, y) = 27;
solve satisfy;
