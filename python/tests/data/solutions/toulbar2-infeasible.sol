c /usr/bin/toulbar2  version : 1.1.1-25-gb8fe0a4-master (1606241785), copyright (c) 2006-2020, toulbar2 team
loading pseudo-Boolean optimization file:none.opb
No solution found by initial propagation!
end.
