% A way around four towns by roads of which one town has a single one.
include "circuit.mzn";
array[1..4] of var 1..4: next;
constraint :: "around" circuit(next);
constraint :: "roads" next[1] in {2, 3} /\ next[2] in {1, 3} /\ next[3] in {1, 2};
constraint :: "one road" next[4] = 1;
solve satisfy;
