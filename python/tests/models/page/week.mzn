enum Task = {design, build, trial};
array[Task] of int: takes = [2, 3, 2];
array[Task] of var 0..10: start;
constraint :: "order" forall(t in {design, build})(
    start[t] + takes[t] <= start[enum_next(Task, t)]
);
constraint :: "parts come late" start[build] >= 3;
constraint :: "this week" start[trial] + takes[trial] <= 6;
constraint start[design] >= 1;
solve minimize start[trial];
