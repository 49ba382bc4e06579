% Numbers in two parts of one sum, which is odd.
array[1..6] of int: a = [7, 3, 5, 1, 8, 3];
array[1..6] of var bool: left;
constraint sum(i in 1..6)(a[i] * left[i]) = sum(i in 1..6)(a[i] * (1 - left[i]));
solve satisfy;
