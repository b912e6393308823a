NAME teams
ROWS
 N pay
 G packing
 G loading
 G driving
 G cleaning
 G selling
 G counting
COLUMNS
 north pay 95.87
 north packing 57.01
 north selling 81.46
 north counting 1.10
 south pay 77.28
 south packing 86.93
 south loading 81.79
 south cleaning 17.19
 east pay 40.60
 east loading 80.07
 east driving 94.75
 east cleaning 43.67
 west pay 66.76
 west driving 47.96
 west cleaning 61.48
 west selling 40.75
 harbour pay 4.33
 harbour packing 20.96
 harbour selling 65.17
 harbour counting 86.91
 station pay 4.16
 station loading 83.58
 station driving 42.69
 station counting 99.13
 market pay 53.29
 market loading 45.28
 market driving 22.95
 market selling 86.77
 bridge pay 18.09
 bridge packing 40.14
 bridge cleaning 75.75
 bridge selling 56.85
 airport pay 56.41
 airport packing 86.84
 airport selling 92.51
 airport counting 42.06
RHS
 HOURS packing 680.91
 HOURS loading 457.58
 HOURS driving 589.00
 HOURS cleaning 683.30
 HOURS selling 1519.96
 HOURS counting 759.79
ENDATA
