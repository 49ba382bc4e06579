include "fzn_count_eq.mzn";

predicate fzn_count_geq(array[int] of var int: x, var int: y, var int: c) =
    let { var 0..length(x): n; constraint fzn_count_eq(x, y, n) } in n <= c;
