% How many of the numbers are y: by the counters of the wide kit.
predicate fzn_count_eq(array[int] of var int: x, var int: y, var int: c) =
    propbench_count([x[i] = y | i in index_set(x)], c);
