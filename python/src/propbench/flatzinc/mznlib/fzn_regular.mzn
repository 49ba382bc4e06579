include "fzn_table_int.mzn";

% Each step is a row of a table: a state, what is read in it, and the next state. (Of more rows than
% a relation has room for, the next state is looked up.)
predicate fzn_regular(array[int] of var int: x, int: Q, int: S,
                      array[int, int] of int: d, int: q0, set of int: F) =
    let {
        int: m = min(index_set(x)), int: n = max(index_set(x)) + 1,
        array[m..n] of var 1..Q: a,
        array[int] of int: steps = [
            if k = 1 then q elseif k = 2 then s else d[q, s] endif
            | q in 1..Q, s in 1..S, k in 1..3 where d[q, s] in 1..Q],
        int: many = length(steps) div 3
    } in
    a[m] = q0 /\ a[n] in F /\
    forall(i in index_set(x)) (
        x[i] in 1..S /\
        if many <= 64 then
            fzn_table_int([a[i], x[i], a[i + 1]], array2d(1..many, 1..3, steps))
        else a[i + 1] = d[a[i], x[i]] endif
    );
