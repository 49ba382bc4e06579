% A planner's choice: what a venue costs and takes, and what is left for the rest.
enum Venue = {hotel, uni, barn};
array[Venue] of int: takes = [2, 5, 9];
array[Venue] of int: costs = [4000, 1500, 400];
var Venue: venue;
var 0..30: days;
var 0..9000: cost;
constraint days = takes[venue] + 3;
constraint cost = costs[venue] + 100 * days;
constraint cost <= 4000;
solve minimize days;
