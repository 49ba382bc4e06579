int: n = 15;
array[1..n] of int: w = [23,31,29,44,53,38,63,85,89,82,20,17,41,35,27];
array[1..n] of int: v = [92,57,49,68,60,43,67,84,87,72,31,40,52,33,29];
array[1..n] of var bool: x;
constraint sum(i in 1..n)(w[i]*x[i]) <= 200;
solve maximize sum(i in 1..n)(v[i]*x[i]);
