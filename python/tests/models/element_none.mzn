array[1..5] of int: a = [3, 8, 1, 9, 4];
var 1..5: i;
constraint a[i] > 4;
constraint i mod 2 = 1;
solve satisfy;
