 31/12/26 MADE UP              100.0  2026 W A CASE WITH LETTERS OF TWO BYTES
BUS DATA FOLLOWS                             4 ITEMS
   1 Altstadt      1  1  0 1.000   0.00
   2 Köln Süd      1  1  3 1.000   0.00
   3 Bruch         1  1  0 1.000   0.00
41000Neustadt      1  1  0 1.000   0.00
-999
BRANCH DATA FOLLOWS                          2 ITEMS
   1    2  1  1 1 0  0.01      0.1        0.02
   2    3  1  1 1 0  0.01      0.1        0.02
-999
END OF DATA
