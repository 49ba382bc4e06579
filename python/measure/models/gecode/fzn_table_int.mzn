% What Gecode has, and Debian's files of it name as MiniZinc did before 2.6.
predicate gecode_table_int(array[int] of var int: x, array[int] of int: t);
predicate fzn_table_int(array[int] of var int: x, array[int, int] of int: t) =
    gecode_table_int(x, array1d(t));
