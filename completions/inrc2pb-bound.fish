# Completion of inrc2pb-bound's options and file names, for fish. Written by completions/write.py.
complete -c inrc2pb-bound -f
complete -c inrc2pb-bound -l sce -r -F -d 'The scenario'
complete -c inrc2pb-bound -l his -r -F -d 'The history before the first week'
complete -c inrc2pb-bound -l week -r -F -d 'The requirements and requests of each week, in order'
complete -c inrc2pb-bound -l fix -r -F -d 'Assignments to keep, as a solution file; of week N of several as N=FILE'
complete -c inrc2pb-bound -l early -d 'Charge excess assignments and weekends as soon as they occur'
complete -c inrc2pb-bound -l given -r -F -d 'Facts that all plans are asked to meet'
complete -c inrc2pb-bound -l proof -r -F -d 'The certificate of the bound: prices, or a tree of cases with prices'
complete -c inrc2pb-bound -l roster -r -F -d 'Rosters to judge, one for each week in order, as solution files'
complete -c inrc2pb-bound -l minimums -d 'Leave out the soft rules, to prove that no rosters exist'
complete -c inrc2pb-bound -l help -d 'Print help'
complete -c inrc2pb-bound -l version -d 'Print version'
