NAME two constraints whose linear optimum is not whole
ROWS
 N cost
 L a
 L b
COLUMNS
 x cost -5 a 6
 x b 1
 y cost -4 a 4
 y b 2
RHS
 a 24 b 6
BOUNDS
 UI x 10
 UI y 10
ENDATA
