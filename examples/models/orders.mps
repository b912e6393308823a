NAME orders
ROWS
 N hours
 L capacity
 G bolts
 G screws
COLUMNS
 make-bolts hours 1 capacity 2
 make-bolts bolts 1
 make-screws hours 1 capacity 3
 make-screws screws 1
RHS
 capacity 40 bolts 11
 screws 7
ENDATA
