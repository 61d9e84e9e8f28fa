NAME          SPLIT
ROWS
 N  COST
 E  R1
 E  R2
COLUMNS
    MARK0     'MARKER'                 'INTORG'
    X1        R1        71             R2        37
    X2        R1        94             R2        41
    X3        R1        86             R2        83
    MARK1     'MARKER'                 'INTEND'
RHS
    RHS       R1        125            R2        80
BOUNDS
 UP BND       X1        1
 UP BND       X2        1
 UP BND       X3        1
ENDATA
