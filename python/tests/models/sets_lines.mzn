% Seven lines of three out of seven points, any two of which meet in one point.
array[1..7] of var set of 1..7: line;
constraint forall(i in 1..7)(card(line[i]) = 3);
constraint forall(i, j in 1..7 where i < j)(card(line[i] intersect line[j]) = 1);
constraint forall(i in 1..6)(min(line[i]) <= min(line[i + 1]));
constraint line[1] = {1, 2, 3} /\ line[2] = {1, 4, 5} /\ line[7] = {3, 5, 6};
solve :: set_search(line, input_order, indomain_min, complete) satisfy;
