var {-5, -1, 2, 3, 9}: x;
var {0, 4, 7, 8}: y;
constraint x + y in {1, 3, 8, 16, 17};
constraint x != y - 4;
solve satisfy;
