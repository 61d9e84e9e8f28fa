* half of a dozen and a half at least
NAME halves
ROWS
 N cost
 G r
COLUMNS
 x r 0.5
RHS
 r 1.25 cost 1.5
BOUNDS
 UI x 3.5
ENDATA
