include "lex_less.mzn";
include "lex_lesseq.mzn";
array[1..3] of var 0..2: a;
array[1..3] of var 0..2: b;
constraint lex_less(a, b) /\ lex_lesseq(b, [a[3], a[2], a[1]]);
constraint sum(a) + sum(b) = 4;
solve satisfy;
