NAME transport
ROWS
 N freight
 L seattle
 L san-diego
 G new-york
 G chicago
 G topeka
COLUMNS
 sea-ny freight 0.225 seattle 1
 sea-ny new-york 1
 sea-chi freight 0.153 seattle 1
 sea-chi chicago 1
 sea-top freight 0.162 seattle 1
 sea-top topeka 1
 sd-ny freight 0.225 san-diego 1
 sd-ny new-york 1
 sd-chi freight 0.162 san-diego 1
 sd-chi chicago 1
 sd-top freight 0.126 san-diego 1
 sd-top topeka 1
RHS
 seattle 350 san-diego 600
 new-york 325 chicago 300
 topeka 275
ENDATA
