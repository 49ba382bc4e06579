% The cheapest posts from which all of eight streets are seen.
array[1..6] of set of int: sees = [{1, 2, 3}, {3, 4, 8}, 4..6, {1, 6, 7}, {2, 5, 8}, 7..8];
array[1..6] of int: cost = [4, 3, 5, 4, 2, 1];
var set of 1..6: posts;
constraint forall(s in 1..8)(exists(p in 1..6)(s in sees[p] /\ p in posts));
var int: total = sum(p in 1..6)(cost[p] * bool2int(p in posts));
solve minimize total;
