% Products for customers: in an order in which few customers wait at any time.
include "all_different.mzn";
int: products; int: customers;
array[1..customers, 1..products] of 0..1: wants;
array[1..products] of var 1..products: at;
constraint all_different(at);
array[1..customers] of var 1..products: first;
array[1..customers] of var 1..products: last;
constraint forall(c in 1..customers where exists(p in 1..products)(wants[c, p] = 1))(
  first[c] = min([at[p] | p in 1..products where wants[c, p] = 1]) /\
  last[c] = max([at[p] | p in 1..products where wants[c, p] = 1]));
constraint forall(c in 1..customers where not exists(p in 1..products)(wants[c, p] = 1))(
  first[c] = 1 /\ last[c] = 1);
var 0..customers: most;
constraint forall(t in 1..products)(
  most >= sum(c in 1..customers)(bool2int(first[c] <= t /\ t <= last[c])));
solve :: int_search(at, first_fail, indomain_min, complete) minimize most;
