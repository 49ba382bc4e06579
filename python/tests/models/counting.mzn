% How many guests come, where a letter says that both do, or not.
var bool: ana;
var bool: ben;
var 0..2: guests;
constraint guests = ana + ben;
constraint guests = 2 \/ not ana;
solve satisfy;
