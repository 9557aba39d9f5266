Infeasible - objective value 10.00000000
      0 x1                   0.5                       0
**    1 x2                   0.5                       0
