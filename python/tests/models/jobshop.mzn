% Two jobs on three machines, each in an order of its own.
array[1..2, 1..3] of int: takes = [|3, 2, 4|2, 4, 1|];
array[1..2, 1..3] of int: machine = [|1, 2, 3|2, 1, 3|];
array[1..2, 1..3] of var 0..20: start;
var 0..20: end;
constraint forall(j in 1..2)(
    start[j, 1] + takes[j, 1] <= start[j, 2] /\ start[j, 2] + takes[j, 2] <= start[j, 3]
    /\ start[j, 3] + takes[j, 3] <= end
);
constraint forall(a, b in 1..3 where machine[1, a] = machine[2, b])(
    start[1, a] + takes[1, a] <= start[2, b] \/ start[2, b] + takes[2, b] <= start[1, a]
);
solve minimize end;
