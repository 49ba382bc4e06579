% The fewest coins for 93 cents.
array[1..5] of int: worth = [1, 5, 10, 25, 50];
array[1..5] of var 0..9: coins;
constraint sum(i in 1..5)(worth[i] * coins[i]) = 93;
constraint coins[5] = 0;
solve minimize sum(coins);
