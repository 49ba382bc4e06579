% Any two differ, and of up to eight at once more is told by the excluders of the wide kit.
predicate fzn_all_different_int(array[int] of var int: x);
