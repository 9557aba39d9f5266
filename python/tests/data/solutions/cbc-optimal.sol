Optimal - objective value 15.00000000
      0 x1                     1                      10
      1 x2                     0                      20
      2 x3                     1                       5
