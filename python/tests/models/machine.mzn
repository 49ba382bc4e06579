include "disjunctive.mzn";
array[1..4] of int: takes = [3, 1, 2, 2];
array[1..4] of int: due = [8, 3, 5, 9];
array[1..4] of var 0..9: start;
array[1..4] of var 0..9: late;
constraint disjunctive(start, takes);
constraint forall(i in 1..4)(late[i] = max(0, start[i] + takes[i] - due[i]));
constraint start[2] >= 2 /\ start[3] >= 1;
solve minimize sum(late);
