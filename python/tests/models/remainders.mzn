% The least number that leaves 2, 3 and 2 by 3, 5 and 7.
var 1..200: x;
constraint x mod 3 = 2 /\ x mod 5 = 3 /\ x mod 7 = 2;
solve minimize x;
