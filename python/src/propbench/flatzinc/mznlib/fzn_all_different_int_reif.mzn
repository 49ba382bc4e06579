predicate fzn_all_different_int_reif(array[int] of var int: x, var bool: b);
