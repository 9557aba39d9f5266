c /usr/bin/toulbar2  version : 1.1.1-25-gb8fe0a4-master (1606241785), copyright (c) 2006-2020, toulbar2 team
loading pseudo-Boolean optimization file:model.opb
c Read 3 variables, with 2 values at most, and 3 linear constraints, with maximum arity 3 (cost multiplier: 1e+07, shifting value: 0)
Cost function decomposition time : 1e-05 seconds.
Preprocessing time: 0.000442 seconds.
0 unassigned variables, 0 values in all current domains (med. size:0, max size:1) and 0 non-unary cost functions (med. arity:0, med. degree:0)
Initial lower and upper bounds: [15, 15] 0.000%
New solution: 15 (0 backtracks, 0 nodes, depth 2)
 x1=v1 x2=v0 x3=v1
Optimum: 15 in 0 backtracks and 0 nodes ( 0 removals by DEE) and 0.001 seconds.
end.
