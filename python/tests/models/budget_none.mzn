array[1..3] of var 0..50: spend;
constraint :: "all" sum(spend) = 60;
constraint :: "food" spend[1] >= 2 * spend[2];
constraint :: "rooms" spend[3] >= spend[1];
constraint :: "fun" spend[2] >= 16;
solve maximize spend[2];
