Stopped on time - objective value 15.00000000
      0 x1                     1                      10
      2 x3            0.99999999                       5
