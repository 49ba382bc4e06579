% Six golfers in three groups of two, for two weeks: no two play together twice.
array[1..2, 1..3] of var set of 1..6: group;
constraint forall(w in 1..2, g in 1..3)(card(group[w, g]) = 2);
constraint forall(w in 1..2, g, h in 1..3 where g < h)(
    card(group[w, g] intersect group[w, h]) = 0 /\ min(group[w, g]) < min(group[w, h])
);
constraint forall(g, h in 1..3)(card(group[1, g] intersect group[2, h]) <= 1);
solve satisfy;
