"""The library of the Python commands of inrc2pb: the files of a week, the program as functions, and
the rules.

`week.files` reads and writes the files of a week, `programs.program` runs `inrc2pb`,
`judging.rules` computes hard rules and costs, and `commands.command` has what every command line
needs. Needs Python 3.11 or later, with NumPy.

A package imports only from those before it: `week`, `programs`, `judging`, `solvers`, `sheets`
(spreadsheets), `shown` (tables, pages and calendars), `rows` (weeks of nurses, and the searches
over them), `search` (a week, a period and bounds), `plans` (the planner's verbs), `page` (their
page in a browser), `commands` (a module for each command).
"""
