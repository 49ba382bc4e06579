% Nurses for some days: day, night or off, by the rules of an automaton.
include "regular.mzn";
include "global_cardinality.mzn";
int: nurses; int: days;
% So many are wanted by day and by night, and so many days each works.
array[1..2] of int: wanted; int: least; int: greatest;
% 1 day, 2 night, 3 off: four in a row at work at the most, two nights, off behind nights.
array[1..7, 1..3] of int: step = [|
  2, 6, 1 | 3, 6, 1 | 4, 6, 1 | 5, 0, 1 | 0, 0, 1 | 0, 7, 1 | 0, 0, 1 |];
array[1..nurses, 1..days] of var 1..3: shift;
constraint forall(i in 1..nurses)(regular(row(shift, i), 7, 3, step, 1, 1..7));
constraint forall(d in 1..days)(global_cardinality(col(shift, d), [1, 2], wanted));
array[1..nurses] of var 0..days: work = [sum(d in 1..days)(bool2int(shift[i, d] != 3)) | i in 1..nurses];
constraint forall(i in 1..nurses)(work[i] in least..greatest);
array[1..nurses] of var 0..days: nights = [sum(d in 1..days)(bool2int(shift[i, d] = 2)) | i in 1..nurses];
solve minimize max(nights);
