array[1..5] of var bool: p;
constraint p[1] xor p[2] /\ (p[2] -> p[3]);
constraint (p[3] <-> not p[4]) \/ p[5];
constraint clause([p[1], p[4]], [p[3]]);
constraint not (p[1] /\ p[5]);
solve satisfy;
