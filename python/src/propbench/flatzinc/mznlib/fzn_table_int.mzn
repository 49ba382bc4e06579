% One of the rows is what the numbers are: told at once, by relations where these are told apart.
predicate fzn_table_int(array[int] of var int: x, array[int, int] of int: t) =
    forall(j in index_set(x)) (x[j] in {t[k, j] | k in index_set_1of2(t)}) /\
    propbench_table(x, array1d(t));
