"""A module for each verb: what it asks for, what it does to a plan, its outcome with its words, and
its form on the page. What several verbs share is below them, and `table` has them all."""
