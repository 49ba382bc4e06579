% Four tasks of a launch in a week, and who may do what when.
include "cumulative.mzn";
enum Task = {design, build, trial, release};
array[Task] of int: takes = [2, 3, 2, 1];
array[Task] of var 0..10: start;
var 0..14: finish;

constraint :: "order" forall(t in Task where t != release)(
    start[t] + takes[t] <= start[enum_next(Task, t)]
);
constraint forall(t in Task)(start[t] + takes[t] <= finish);
constraint :: "in a week" finish <= 7;
constraint :: "late parts" start[build] >= 3;
constraint start[trial] != 5 /\ start[design] >= 0;
constraint :: "one at a time" cumulative(start, takes, [1, 1, 1, 1], 1);
solve minimize finish;
