NAME an even sum is no odd number
ROWS
 E sum
COLUMNS
 x sum 2
 y sum 4
RHS
 sum 7
BOUNDS
 UI x 10
 UI y 10
ENDATA
