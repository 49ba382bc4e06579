% Tasks of people who do one thing at a time: which come before which, when some are due, who is away.
int: tasks;
int: people;
int: days;
array[1..tasks] of 1..days: takes;
array[1..tasks] of 1..people: who;
array[int, 1..2] of int: before;
array[int, 1..2] of int: due;
array[int, 1..3] of int: away;
array[1..tasks] of var 0..days: start;

constraint :: "order" forall(p in index_set_1of2(before))(
    start[before[p, 1]] + takes[before[p, 1]] <= start[before[p, 2]]
);
constraint :: "due" forall(d in index_set_1of2(due))(
    start[due[d, 1]] + takes[due[d, 1]] <= due[d, 2]
);
constraint :: "away" forall(a in index_set_1of2(away), t in 1..tasks where who[t] = away[a, 1])(
    start[t] + takes[t] <= away[a, 2] \/ start[t] >= away[a, 3]
);
constraint :: "one at a time" forall(t, u in 1..tasks where t < u /\ who[t] = who[u])(
    start[t] + takes[t] <= start[u] \/ start[u] + takes[u] <= start[t]
);
solve :: int_search(start, smallest, indomain_min, complete) satisfy;
