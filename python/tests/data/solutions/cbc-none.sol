Stopped on time (no integer solution - continuous used) - objective value 12.50000000
      0 x1                   0.5                      10
      1 x2                   0.5                      20
