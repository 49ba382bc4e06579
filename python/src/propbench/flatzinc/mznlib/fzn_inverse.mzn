% One is at the place of the other where that is at the place of the one.
predicate fzn_inverse(array[int] of var int: f, array[int] of var int: invf) =
    forall(i in index_set(f)) (f[i] in index_set(invf)) /\
    forall(j in index_set(invf)) (invf[j] in index_set(f)) /\
    forall(i in index_set(f), j in index_set(invf)) (f[i] = j <-> invf[j] = i);
