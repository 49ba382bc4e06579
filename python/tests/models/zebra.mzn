% Five houses: who drinks water, and who has the zebra?
include "all_different.mzn";
include "inverse.mzn";
set of int: H = 1..5;
var H: english; var H: spaniard; var H: ukrainian; var H: norwegian; var H: japanese;
var H: red; var H: green; var H: ivory; var H: yellow; var H: blue;
var H: dog; var H: snails; var H: fox; var H: horse; var H: zebra;
var H: coffee; var H: tea; var H: milk; var H: juice; var H: water;
var H: old_gold; var H: kools; var H: chester; var H: lucky; var H: parliament;
constraint all_different([english, spaniard, ukrainian, norwegian, japanese]);
constraint all_different([red, green, ivory, yellow, blue]);
constraint all_different([dog, snails, fox, horse, zebra]);
constraint all_different([coffee, tea, milk, juice, water]);
constraint all_different([old_gold, kools, chester, lucky, parliament]);
constraint english = red /\ spaniard = dog /\ coffee = green /\ ukrainian = tea;
constraint green = ivory + 1 /\ old_gold = snails /\ kools = yellow /\ milk = 3;
constraint norwegian = 1 /\ abs(chester - fox) = 1 /\ abs(kools - horse) = 1;
constraint lucky = juice /\ japanese = parliament /\ abs(norwegian - blue) = 1;
solve satisfy;
