predicate fzn_count_eq_reif(array[int] of var int: x, var int: y, var int: c, var bool: b) =
    propbench_count_reif([x[i] = y | i in index_set(x)], c, b);
