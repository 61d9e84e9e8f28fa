NAME two numbers whose sum is odd and whose difference is 0
ROWS
 E sum
 E difference
COLUMNS
 x sum 1
 x difference 1
 y sum 1
 y difference -1
RHS
 sum 1
BOUNDS
 UI x 1
 UI y 1
ENDATA
