* A print shop works for three departments, which all want their orders this week. Its hours are enough for any two of them.
NAME departments
ROWS
 N cost
 L hours
 L paper
 G sales
 G service
 G training
COLUMNS
 brochures cost 2 hours 0.5
 brochures paper 1 sales 1
 manuals cost 5 hours 1
 manuals paper 4 service 1
 textbooks cost 9 hours 2
 textbooks paper 6 training 1
RHS
 hours 150 paper 600
 sales 120 service 40
 training 30
ENDATA
