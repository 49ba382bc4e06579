/***
---
!Test
solvers: [gecode]
expected: !Error
***/
set of 1..1: x = 1; % Trigger an error at this var decl
