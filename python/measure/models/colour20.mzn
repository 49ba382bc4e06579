int: n=20;
array[1..n] of var 1..4: c;
constraint forall(i,j in 1..n where i<j /\ ((i*j+i+j) mod 5 = 0 \/ j=i+1))(c[i]!=c[j]);
solve minimize max(c);
