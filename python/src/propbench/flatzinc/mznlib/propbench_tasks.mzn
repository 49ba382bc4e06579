% What is told beside of tasks of which no two share any time: from the first one's begin to the
% last one's end there is time for all of them.
predicate propbench_in_a_row(array[int] of var int: s, array[int] of var int: d) =
    if length(s) <= 2 then true
    else max([s[i] + d[i] | i in index_set(s)]) - min(s) >= sum(d) endif;

% The same of tasks of which several share time: what they take together of what there is.
predicate propbench_in_all(array[int] of var int: s, array[int] of var int: d,
                           array[int] of var int: r, var int: b) =
    if length(s) <= 2 \/ ub(b) <= 0 then true
    elseif is_fixed(d) /\ is_fixed(r) then
        let { int: work = sum(i in index_set(s)) (fix(d[i]) * fix(r[i])), int: there = ub(b) } in
            max([s[i] + d[i] | i in index_set(s)]) - min(s) >= (work + there - 1) div there
    else true endif;
