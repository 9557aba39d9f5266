
==  Welcome to the SYMPHONY MILP Solver 
==  Copyright 2000-2019 Ted Ralphs and others 
==  All Rights Reserved. 
==  Distributed under the Eclipse Public License 1.0 
==  Version: 5.6.17 
==  Build Date: Sep 18 2022 

Reading input file...


Starting Preprocessing...
Preprocessing finished...
 	 coefficients modified: 14
	 constraints removed: 10
	 variables fixed: 52
Problem has 
	 470 constraints 
	 497 variables 
	 4244 nonzero coefficients

Total Presolve Time: 0.020324...

Solving...


****************************************************
* Time Limit Reached                               *
* Now displaying stats and best solution found...  *
****************************************************

======================= CP Timing ===========================
  Cut Pool                  0.000
====================== LP/CG Timing =========================
  LP Solution Time          0.091
  LP Setup Time             0.000
  Variable Fixing           0.000
  Pricing                   0.000
  Strong Branching          0.005
  Separation                0.202
  Primal Heuristics         0.125
  Communication             0.000
=================== Parallel Overhead ======================
  Communication         0.000
  Ramp Up Time (TM)     0.021
  Ramp Down Time        0.000
  Total User Time              0.428
  Total Wallclock Time         1.307

====================== Statistics =========================
Number of created nodes :       3
Number of analyzed nodes:       1
Depth of tree:                  1
Size of the tree:               3
Number of solutions found:      0
Number of solutions in pool:    0
Number of Chains:               1
Number of Diving Halts:         0
Number of cuts in cut pool:     0
Lower Bound in Root:            316.250

======================= LP Solver =========================
Number of times LP solver called:                 23
Number of calls from feasibility pump:            0
Number of calls from strong branching:            14
Number of solutions found by LP solve:            0
Number of bounds changed by strong branching:     0
Number of nodes pruned by strong branching:       0
Number of bounds changed by branching presolver:  0
Number of nodes pruned by branching presolver:    0

==================== Primal Heuristics ====================
                             Time      #Called   #Solutions
Rounding I                   0.00           68            0 
Rounding II                  0.00           10            0 
Diving                       0.39            1            0 
     VecLF_                  0.02            1            0
     GuidedF_                0.00 
     COverF_                 0.00 
     EucF_                   0.00 
     RankF_                  0.00 
     FracF_                  0.03            1            0
     VecL_                   0.23            1            0
     Guided_                 0.00 
     COver_                  0.00 
     Euc_                    0.00 
     Rank_                   0.00 
     Frac_                   0.11            1            0
Feasibility Pump             0.00 
Local Search                 0.00 
Restricted Search            0.00 
Rins Search                  0.00 
Local Branching              0.00 

=========================== Cuts ==========================
Accepted:                         1012
Added to LPs:                     236
Deleted from LPs:                 217
Removed because of bad coeffs:    768
Removed because of duplicacy:     4
Insufficiently violated:          0
In root:                          1012

Time in cut generation:              0.16
Time in checking quality and adding: 0.02

                   Time     #Called     In Root       Total
Gomory             0.04           9         285         285 
Knapsack           0.00           9           0           0 
Clique             0.00           9          35          35 
Probing            0.02           9          67          67 
Flowcover          0.00           9           0           0 
Twomir             0.10           9         625         625 
Oddhole            0.00 
Mir                0.00 
Rounding           0.00 
LandP-I            0.00 
LandP-II           0.00 
Redsplit           0.00 

===========================================================
Current Lower Bound:         316.2500000000

No Solution Found

