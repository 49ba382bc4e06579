% Four pigeons in three holes, by truths.
array[1..4, 1..3] of var bool: sits;
constraint forall(p in 1..4)(exists(h in 1..3)(sits[p, h]));
constraint forall(h in 1..3, p, q in 1..4 where p < q)(not sits[p, h] \/ not sits[q, h]);
solve satisfy;
