c /usr/bin/toulbar2  version : 1.1.1-25-gb8fe0a4-master (1606241785), copyright (c) 2006-2020, toulbar2 team
loading pseudo-Boolean optimization file:week0.opb
c Read 549 variables, with 2 values at most, and 480 linear constraints, with maximum arity 37 (cost multiplier: 1e+07, shifting value: 0)
Cost function decomposition time : 0.000211 seconds.
Preprocessing time: 0.023986 seconds.
489 unassigned variables, 978 values in all current domains (med. size:2, max size:2) and 507 non-unary cost functions (med. arity:7, med. degree:18)
Initial lower and upper bounds: [0, 5693439529] 100.000%

Time limit expired... Aborting...
