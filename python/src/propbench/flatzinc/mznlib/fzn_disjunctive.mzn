include "propbench_tasks.mzn";

% Of any two one ends before the other begins, but for those that take no time.
predicate fzn_disjunctive(array[int] of var int: s, array[int] of var int: d) =
    forall(i in index_set(d)) (d[i] >= 0) /\
    forall(i, j in index_set(d) where i < j) (
        d[i] = 0 \/ d[j] = 0 \/ s[i] + d[i] <= s[j] \/ s[j] + d[j] <= s[i]
    ) /\
    let { set of int: long = {i | i in index_set(d) where lb(d[i]) > 0} } in
        propbench_in_a_row([s[i] | i in long], [d[i] | i in long]);
