IEEE 14 BUS TOPOLOGY
BUS DATA FOLLOWS
   1                     3
   2                     2
   3                     2
   4                     0
   5                     0
   6                     2
   7                     0
   8                     2
   9                     0
  10                     0
  11                     0
  12                     0
  13                     0
  14                     0
-999
BRANCH DATA FOLLOWS
   1    2
   1    5
   2    3
   2    4
   2    5
   3    4
   4    5
   4    7
   4    9
   5    6
   6   11
   6   12
   6   13
   7    8
   7    9
   9   10
   9   14
  10   11
  12   13
  13   14
-999
