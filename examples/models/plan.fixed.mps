NAME          PLAN
ROWS
 N  COST
 E  DEM01
 L  CAP01
 G  MIX01
 E  DEM02
 L  CAP02
 G  MIX02
 E  DEM03
 L  CAP03
 G  MIX03
 E  DEM04
 L  CAP04
 G  MIX04
 E  DEM05
 L  CAP05
 G  MIX05
 E  DEM06
 L  CAP06
 G  MIX06
 E  DEM07
 L  CAP07
 G  MIX07
 E  DEM08
 L  CAP08
 G  MIX08
 E  DEM09
 L  CAP09
 G  MIX09
 E  DEM10
 L  CAP10
 G  MIX10
COLUMNS
    MAKE01    COST      2              DEM01     1
    MAKE01    CAP01     1              MIX01     1
    BUY01     COST      5              DEM01     1
    BUY01     MIX01     -1
    STOK01    COST      1              DEM01     -1
    OVER01    COST      2              CAP01     -1
    MAKE02    COST      2              DEM02     1
    MAKE02    CAP02     1              MIX02     1
    BUY02     COST      5              DEM02     1
    BUY02     MIX02     -1
    STOK02    COST      1              DEM02     -1
    OVER02    COST      2              CAP02     -1
    MAKE03    COST      2              DEM03     1
    MAKE03    CAP03     1              MIX03     1
    BUY03     COST      5              DEM03     1
    BUY03     MIX03     -1
    STOK03    COST      1              DEM03     -1
    OVER03    COST      2              CAP03     -1
    MAKE04    COST      2              DEM04     1
    MAKE04    CAP04     1              MIX04     1
    BUY04     COST      5              DEM04     1
    BUY04     MIX04     -1
    STOK04    COST      1              DEM04     -1
    OVER04    COST      2              CAP04     -1
    MAKE05    COST      2              DEM05     1
    MAKE05    CAP05     1              MIX05     1
    BUY05     COST      5              DEM05     1
    BUY05     MIX05     -1
    STOK05    COST      1              DEM05     -1
    OVER05    COST      2              CAP05     -1
    MAKE06    COST      2              DEM06     1
    MAKE06    CAP06     1              MIX06     1
    BUY06     COST      5              DEM06     1
    BUY06     MIX06     -1
    STOK06    COST      1              DEM06     -1
    OVER06    COST      2              CAP06     -1
    MAKE07    COST      2              DEM07     1
    MAKE07    CAP07     1              MIX07     1
    BUY07     COST      5              DEM07     1
    BUY07     MIX07     -1
    STOK07    COST      1              DEM07     -1
    OVER07    COST      2              CAP07     -1
    MAKE08    COST      2              DEM08     1
    MAKE08    CAP08     1              MIX08     1
    BUY08     COST      5              DEM08     1
    BUY08     MIX08     -1
    STOK08    COST      1              DEM08     -1
    OVER08    COST      2              CAP08     -1
    MAKE09    COST      2              DEM09     1
    MAKE09    CAP09     1              MIX09     1
    BUY09     COST      5              DEM09     1
    BUY09     MIX09     -1
    STOK09    COST      1              DEM09     -1
    OVER09    COST      2              CAP09     -1
    MAKE10    COST      2              DEM10     1
    MAKE10    CAP10     1              MIX10     1
    BUY10     COST      5              DEM10     1
    BUY10     MIX10     -1
    STOK10    COST      1              DEM10     -1
    OVER10    COST      2              CAP10     -1
RHS
    RHS       COST      -345
    RHS       DEM01     10             CAP01     6
    RHS       MIX01     -5
    RHS       DEM02     20             CAP02     12
    RHS       MIX02     -5
    RHS       DEM03     30             CAP03     18
    RHS       MIX03     -5
    RHS       DEM04     40             CAP04     24
    RHS       MIX04     -5
    RHS       DEM05     50             CAP05     30
    RHS       MIX05     -5
    RHS       DEM06     60             CAP06     36
    RHS       MIX06     -5
    RHS       DEM07     70             CAP07     42
    RHS       MIX07     -5
    RHS       DEM08     80             CAP08     48
    RHS       MIX08     -5
    RHS       DEM09     90             CAP09     54
    RHS       MIX09     -5
    RHS       DEM10     100            CAP10     60
    RHS       MIX10     -5
RANGES
    RNG       CAP01     6
    RNG       CAP02     12
    RNG       CAP03     18
    RNG       CAP04     24
    RNG       CAP05     30
    RNG       CAP06     36
    RNG       CAP07     42
    RNG       CAP08     48
    RNG       CAP09     54
    RNG       CAP10     60
BOUNDS
 UP BND       BUY01     20
 LO BND       STOK01    1
 UP BND       OVER01    3
 UP BND       BUY02     20
 LO BND       STOK02    1
 UP BND       OVER02    6
 UP BND       BUY03     20
 LO BND       STOK03    1
 UP BND       OVER03    9
 UP BND       BUY04     20
 LO BND       STOK04    1
 UP BND       OVER04    12
 UP BND       BUY05     20
 LO BND       STOK05    1
 UP BND       OVER05    15
 UP BND       BUY06     20
 LO BND       STOK06    1
 UP BND       OVER06    18
 UP BND       BUY07     20
 LO BND       STOK07    1
 UP BND       OVER07    21
 UP BND       BUY08     20
 LO BND       STOK08    1
 UP BND       OVER08    24
 UP BND       BUY09     20
 LO BND       STOK09    1
 UP BND       OVER09    27
 UP BND       BUY10     20
 LO BND       STOK10    1
 UP BND       OVER10    30
ENDATA
