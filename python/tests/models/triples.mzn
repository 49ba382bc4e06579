% The sides of right triangles.
var 1..20: a;
var 1..20: b;
var 1..20: c;
constraint a * a + b * b = c * c /\ a < b;
solve satisfy;
