include "cumulative.mzn";
array[1..10] of int: d=[3,4,2,5,1,3,2,4,3,2]; array[1..10] of int: r=[2,3,1,2,4,3,2,1,3,2];
array[1..10] of var 0..30: s; var 0..30: end;
constraint cumulative(s,d,r,5);
constraint forall(i in 1..10)(s[i]+d[i]<=end);
constraint s[1]+3<=s[4] /\ s[2]+4<=s[5] /\ s[4]+5<=s[8] /\ s[3]+2<=s[6] /\ s[6]+3<=s[9];
solve :: int_search(s, smallest, indomain_min, complete) minimize end;
