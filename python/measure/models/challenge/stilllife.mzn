% As many living cells as can be in a square of n by n that stays as it is.
int: n; int: m = n + 4;
array[1..m, 1..m] of var bool: cell;
array[1..m, 1..m] of var 0..8: around;
constraint forall(i, j in 1..m where i <= 2 \/ j <= 2 \/ i > n + 2 \/ j > n + 2)(not cell[i, j]);
constraint forall(i, j in 2..m - 1)(
  around[i, j] = sum(a, b in -1..1 where a != 0 \/ b != 0)(bool2int(cell[i + a, j + b])));
constraint forall(i, j in 1..m where i = 1 \/ j = 1 \/ i = m \/ j = m)(around[i, j] = 0);
constraint forall(i, j in 2..m - 1)(
  (cell[i, j] -> around[i, j] in 2..3) /\ (around[i, j] = 3 -> cell[i, j]));
var 0..n * n: living = sum(i, j in 3..n + 2)(bool2int(cell[i, j]));
solve maximize living;
