% Golfers in groups of a size for some weeks: any two meet at most once.
int: groups; int: size; int: weeks; int: golfers = groups * size;
array[1..weeks, 1..groups] of var set of 1..golfers: group;
constraint forall(w in 1..weeks, g in 1..groups)(card(group[w, g]) = size);
constraint forall(w in 1..weeks)(forall(g, h in 1..groups where g < h)(group[w, g] intersect group[w, h] = {}));
constraint forall(v, w in 1..weeks where v < w)(
  forall(g, h in 1..groups)(card(group[v, g] intersect group[w, h]) <= 1));
constraint forall(g in 1..groups)(group[1, g] = (g - 1) * size + 1..g * size);
constraint forall(w in 2..weeks)(forall(i in 1..size)(i in group[w, i]));
solve satisfy;
