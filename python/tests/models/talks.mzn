% Four talks in three slots of two rooms: who speaks twice can't at once.
array[1..4] of var 1..3: slot;
array[1..4] of var 1..2: room;
constraint forall(i, j in 1..4 where i < j)(slot[i] != slot[j] \/ room[i] != room[j]);
constraint slot[1] != slot[2] /\ slot[2] < slot[3];
constraint room[4] = 1 /\ slot[4] = 2;
solve satisfy;
