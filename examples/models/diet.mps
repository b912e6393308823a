NAME diet
ROWS
 N cents
 G energy
 G protein
 G calcium
COLUMNS
 oatmeal cents 3 energy 110
 oatmeal protein 4 calcium 2
 chicken cents 24 energy 205
 chicken protein 32 calcium 12
 eggs cents 13 energy 160
 eggs protein 13 calcium 54
 milk cents 9 energy 160
 milk protein 8 calcium 285
 pie cents 20 energy 420
 pie protein 4 calcium 22
 pork cents 19 energy 260
 pork protein 14 calcium 80
RHS
 energy 2000 protein 55
 calcium 800
BOUNDS
 UP oatmeal 4
 UP chicken 3
 UP eggs 2
 UP milk 8
 UP pie 2
 UP pork 2
ENDATA
