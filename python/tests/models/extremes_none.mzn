array[1..4] of var 0..9: a;
constraint :: "most" max(a) <= 5;
constraint :: "least" min(a) >= 3;
constraint :: "sum" sum(a) = 21;
solve satisfy;
