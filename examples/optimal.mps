NAME least
ROWS
 N cost
 G R1
COLUMNS
 a cost 1 R1 1
 b cost 2 R1 1
RHS
 cost -3 R1 1
ENDATA
OPTIMAL
x a 1
y R1 1
END
