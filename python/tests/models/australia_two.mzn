% The map in two colours.
enum State = {WA, NT, SA, Q, NSW, V, T};
array[State] of var 1..2: colour;
array[1..9, 1..2] of State: beside =
    [|WA, NT|WA, SA|NT, SA|NT, Q|SA, Q|SA, NSW|SA, V|Q, NSW|NSW, V|];
constraint forall(b in 1..9)(colour[beside[b, 1]] != colour[beside[b, 2]]);
solve satisfy;
