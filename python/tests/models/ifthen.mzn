var 0..6: x;
var 0..20: price;
constraint price = if x <= 2 then 3 * x elseif x <= 4 then 2 * x + 1 else x + 5 endif;
constraint price > 5;
solve minimize price - x;
