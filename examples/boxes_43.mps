NAME boxes of 6, 9 and 20 that make 43 together
ROWS
 E total
COLUMNS
 six total 6
 nine total 9
 twenty total 20
RHS
 total 43
BOUNDS
 UI six 7
 UI nine 4
 UI twenty 2
ENDATA
