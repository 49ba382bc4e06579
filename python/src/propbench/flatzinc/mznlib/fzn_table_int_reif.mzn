% One of the rows is what the numbers are.
predicate fzn_table_int_reif(array[int] of var int: x, array[int, int] of int: t, var bool: b) =
    b <-> exists(k in index_set_1of2(t)) (forall(j in index_set(x)) (x[j] = t[k, j]));
