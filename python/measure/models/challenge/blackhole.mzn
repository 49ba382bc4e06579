% Patience "black hole": each card is next to the one before it, and each pile is laid in order.
include "inverse.mzn";
include "table.mzn";
int: ranks; int: suits; int: n = ranks * suits;
% Card 1 lies in the middle, all others in piles of three.
array[int, 1..3] of int: pile;
array[1..n] of var 1..n: card;
array[1..n] of var 1..n: place;
set of int: all = 1..n;
array[int, 1..2] of int: next = array2d(1..card({i * n + j | i, j in all where
    ((i - 1) mod ranks + 1) mod ranks = (j - 1) mod ranks \/
    ((j - 1) mod ranks + 1) mod ranks = (i - 1) mod ranks}), 1..2,
  [if k = 1 then i else j endif | i, j in all, k in 1..2 where
    ((i - 1) mod ranks + 1) mod ranks = (j - 1) mod ranks \/
    ((j - 1) mod ranks + 1) mod ranks = (i - 1) mod ranks]);
constraint inverse(card, place) /\ place[1] = 1;
constraint forall(p in index_set_1of2(pile), k in 1..2)(place[pile[p, k]] < place[pile[p, k + 1]]);
constraint forall(i in 1..n - 1)(table([card[i], card[i + 1]], next));
solve :: int_search(card, input_order, indomain_min, complete) satisfy;
