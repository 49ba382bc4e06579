var -4..4: x;
var -4..4: y;
constraint abs(x) + abs(y) = 4 /\ abs(x - y) = 2;
solve satisfy;
