NAME coins of 10007 and 10009 that make 100140047 together
ROWS
 E total
COLUMNS
 x total 10007
 y total 10009
RHS
 total 100140047
BOUNDS
 UI x 20000
 UI y 20000
ENDATA
