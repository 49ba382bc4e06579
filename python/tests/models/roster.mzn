% Six shifts of three people, each two, none two in a row; what each prefers counts.
include "global_cardinality.mzn";
array[1..6] of var 1..3: who;
array[1..3, 1..6] of int: likes = [|3, 1, 2, 0, 1, 2|0, 2, 3, 3, 1, 1|2, 2, 1, 1, 3, 3|];
constraint global_cardinality(who, [1, 2, 3], [2, 2, 2]);
constraint forall(i in 1..5)(who[i] != who[i + 1]);
solve :: int_search(who, first_fail, indomain_max, complete)
    maximize sum(i in 1..6)(likes[who[i], i]);
