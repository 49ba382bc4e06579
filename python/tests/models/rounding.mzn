% Two boards, and how far their sum is off, where each length is rounded.
var 0..100: left;
var 0..100: right;
var -1..1: error;
constraint left = 33 /\ right = 33;
constraint left + right + error = 67;
solve satisfy;
