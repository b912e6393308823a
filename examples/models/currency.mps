NAME currency
OBJSENSE MAX
ROWS
 N euros
 L have-euros
 L have-pounds
COLUMNS
 to-pounds euros -1 have-euros 1
 to-pounds have-pounds -6/7
 to-euros euros 1.2 have-euros -1.2
 to-euros have-pounds 1
RHS
 have-euros 100
ENDATA
