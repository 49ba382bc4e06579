% Who opens and who closes: who works which shift, and which may follow which.
include "table.mzn";
enum Shift = {early, late, night};
enum Person = {ana, ben, cleo};
array[1..6, 1..2] of int: works = [|1, 1|1, 2|2, 2|2, 3|3, 1|3, 3|];
array[1..3, 1..2] of int: after = [|1, 2|1, 3|2, 3|];
var Person: who_opens;
var Person: who_closes;
var Shift: opens;
var Shift: closes;
constraint table([who_opens, opens], works);
constraint table([who_closes, closes], works);
constraint table([opens, closes], after);
constraint who_opens = ben;
solve satisfy;
