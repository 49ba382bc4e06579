include "fzn_all_different_int.mzn";

% Each has a place on the tour, from the first on, and the next one the place behind it.
predicate fzn_circuit(array[int] of var int: x) =
    let {
        set of int: nodes = index_set(x), int: first = min(nodes), int: n = card(nodes),
        array[nodes] of var 1..n: place
    } in
    propbench_tour(x, first) /\ fzn_all_different_int(x) /\
    fzn_all_different_int(place) /\ place[first] = 1 /\
    forall(i in nodes) (x[i] in nodes /\ x[i] != i) /\
    forall(i, j in nodes where i != j) (
        x[i] = j -> if j = first then place[i] = n else place[j] = place[i] + 1 endif
    );
