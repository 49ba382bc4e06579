% What the workbench states at once, and models don't call: how many truths hold, that numbers are a
% row of a table, that tasks share what there is, that numbers are a tour, by which costs have a
% bound, and a constraint of a model with what it is called, which holds where that is believed.
predicate propbench_count(array[int] of var bool: truths, var int: many);
predicate propbench_count_reif(array[int] of var bool: truths, var int: many, var bool: holds);
predicate propbench_blame(var bool: holds, string: label);
predicate propbench_room(array[int] of var int: starts, array[int] of var int: lengths,
                         array[int] of int: needs, int: capacity);
predicate propbench_table(array[int] of var int: numbers, array[int] of int: rows);
predicate propbench_tour(array[int] of var int: numbers, int: first);
