% The same with a wish too many.
enum Venue = {hotel, uni, barn};
array[Venue] of int: takes = [2, 5, 9];
array[Venue] of int: costs = [4000, 1500, 400];
var Venue: venue;
var 0..30: days;
var 0..9000: cost;
constraint days = takes[venue] + 3;
constraint cost = costs[venue] + 100 * days;
constraint :: "cheap" cost <= 2000;
constraint :: "soon" days <= 8;
constraint :: "room" venue != barn;
solve minimize cost;
