% Three people and an hour for all: each is away at times.
var 8..17: hour;
constraint :: "Ana" hour >= 10;
constraint :: "Ben" hour <= 12 \/ hour >= 15;
constraint :: "Cleo" hour mod 2 = 1;
constraint :: "lunch" hour != 11;
constraint :: "early" hour < 15;
solve satisfy;
