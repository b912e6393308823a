NAME cycling
OBJSENSE MAX
ROWS
 N gain
 L R1
 L R2
 L R3
COLUMNS
 a gain 10 R1 0.5
 a R2 0.5 R3 1
 b gain -57 R1 -5.5
 b R2 -1.5
 c gain -9 R1 -2.5
 c R2 -0.5
 d gain -24 R1 9
 d R2 1
RHS
 R3 1
ENDATA
