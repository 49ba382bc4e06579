int: n = 5;
array[1..n] of int: weight = [12, 2, 1, 4, 1];
array[1..n] of int: worth = [4, 2, 1, 10, 2];
array[1..n] of var 0..3: take;
constraint sum(i in 1..n)(weight[i] * take[i]) <= 15;
solve :: int_search(take, input_order, indomain_max, complete)
    maximize sum(i in 1..n)(worth[i] * take[i]);
