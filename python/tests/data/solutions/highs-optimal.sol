Model status
Optimal

# Primal solution values
Feasible
Objective 15
# Columns 3
x1 1
x2 0
x3 1
# Rows 3
c1 1
c2 1
c3 -2

# Dual solution values
None

# Basis
HiGHS v1
None
