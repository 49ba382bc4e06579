array[1..3] of var 0..3: a;
var 1..3: i;
constraint a[i] = a[i mod 3 + 1] + 1;
constraint a[1] = 2 /\ a[3] > a[2];
solve satisfy;
