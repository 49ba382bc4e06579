% Knights say what is so, and knaves what isn't. A: B is a knave. B: A and C are alike. C: I am a
% knight or B is.
var bool: A;
var bool: B;
var bool: C;
constraint A <-> not B;
constraint B <-> (A = C);
constraint C <-> (C \/ B);
solve satisfy;
