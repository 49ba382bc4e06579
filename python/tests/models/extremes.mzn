array[1..4] of var 0..4: a;
constraint max(a) - min(a) = 2 /\ sum(a) = 6;
constraint max(a[1], a[2]) = min(a[3], a[4]);
solve satisfy;
