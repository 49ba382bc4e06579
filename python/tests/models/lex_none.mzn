include "lex_less.mzn";
array[1..3] of var 0..2: a;
array[1..3] of var 0..2: b;
constraint lex_less(a, b);
constraint lex_less(b, a);
solve satisfy;
