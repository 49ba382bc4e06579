array[1..4] of var bool: lamp;
var 1..4: i;
constraint lamp[i] /\ not lamp[5 - i];
constraint sum(lamp) = 3;
solve satisfy;
