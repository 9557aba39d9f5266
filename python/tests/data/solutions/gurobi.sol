# Solution for model obj
# Objective value = 15
x1 1
x2 0
x3 9.9999999999999989e-01
