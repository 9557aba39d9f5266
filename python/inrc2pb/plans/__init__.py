"""Plans of a ward from one folder: its spreadsheet, and what verbs have made of it, as
`inrc2pb-plan` and its page show it.

An event becomes an outcome, and an outcome has lines:

    words of the terminal, fields of the page
      -> `verb.Event`
      -> a module of `verbs`, as `table` names it: what it makes of a plan, without a file
                                                     (a question of the page ends here)
      -> `planning`, if it searches, and `store`, which writes to a `ward_folder` and its `pages`
      -> `verb.Outcome`: its status is the exit status, and `lines` are its words

What several verbs share is below `verbs`, which do not import one another: `absence`, `planned`,
`offers`, `odd_sheet`, and `sentences` of facts.

A plan (`ward.WardPlan`) is a ward (`ward.Ward`, what the spreadsheet says now) and a state
(`state.State`, what verbs have made of it), with the limits that it is judged by. `facts` and
`swaps` judge it. Days are days of the plan, from its first Monday on; only files of single weeks,
and what judges a single week, count the days of the week.
"""
