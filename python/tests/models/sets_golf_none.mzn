% Six golfers in two groups of three, for two weeks: no two play together twice.
array[1..2, 1..2] of var set of 1..6: group;
constraint forall(w, g in 1..2)(card(group[w, g]) = 3);
constraint forall(w in 1..2)(card(group[w, 1] intersect group[w, 2]) = 0);
constraint forall(g, h in 1..2)(card(group[1, g] intersect group[2, h]) <= 1);
solve satisfy;
