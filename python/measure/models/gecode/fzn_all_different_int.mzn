% What Gecode has, and Debian's files of it name as MiniZinc did before 2.6.
predicate gecode_all_different_int(array[int] of var int: x);
predicate fzn_all_different_int(array[int] of var int: x) = gecode_all_different_int(x);
