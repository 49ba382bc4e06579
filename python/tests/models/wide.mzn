% Far more values than a choice has.
var -100000..100000: x;
var -100000..100000: y;
constraint 317 * x + 211 * y = 1 /\ x > 0 /\ y > -1000;
solve minimize x;
