% Four lessons in three hours of one room, for a teacher who is away and one who is needed twice.
array[1..4] of var 1..3: hour;
constraint :: "room" forall(i, j in 1..4 where i < j)(hour[i] != hour[j] \/ i + j > 6);
constraint :: "away" hour[1] != 1 /\ hour[2] != 1;
constraint :: "first" hour[3] < hour[4];
constraint :: "class" hour[4] < hour[1] \/ hour[4] < hour[2];
constraint hour[3] >= 2;
solve satisfy;
