% Two teams out of one to six: unions, differences and sizes, and one whose number is chosen.
var set of 1..6: red; var set of 1..6: blue; var set of 1..6: either; var 1..3: which;
constraint either = red union blue /\ card(either) = 5 /\ card(red diff blue) = 2;
constraint red symdiff blue = [1..4, {1, 2, 5, 6}, {2, 4, 6}][which];
constraint {2} subset red /\ 6 in blue -> which = 2;
solve satisfy;
