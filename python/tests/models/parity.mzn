% Lights of which an even number and an odd number are to be on.
array[1..4] of var bool: p;
constraint :: "odd" xorall(p);
constraint :: "pairs" p[1] = p[2] /\ p[3] = p[4];
solve satisfy;
