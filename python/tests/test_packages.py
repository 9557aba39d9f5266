"""Tests of packages.py on a small library."""

import unittest

import packages
from ward import HelperTest


class Imports(HelperTest):
    def faults(self, **modules):
        """The faults of a library in which `high` may import `low`, with these modules in place of
        its own."""
        texts = {
            "low/one": "from .two import name\n",
            "low/two": "name = 1\n",
            "high/three": "from ..low.one import name\nfrom ..low import two\n",
        }
        for module, text in {
            **texts,
            **{module.replace("_", "/"): text for module, text in modules.items()},
        }.items():
            path = self.folder / f"{module}.py"
            path.parent.mkdir(parents=True, exist_ok=True)
            path.write_text(text)
        allowed = {"high": {"low"}, "low": set(), "high.verbs": {"apart"}}
        return list(packages.faults(self.folder, allowed))

    def test_doors_that_are_allowed(self):
        self.assertEqual(self.faults(), [])

    def test_a_new_door(self):
        self.assertEqual(
            self.faults(low_two="from ..high.four import other\n"),
            ["low.two imports high.four: low may not import high"],
        )

    def test_a_door_in_a_function(self):
        self.assertEqual(
            self.faults(low_two="def f():\n    from ..high import four\n"),
            ["low.two imports high: low may not import high"],
        )

    def test_a_circle(self):
        found = self.faults(low_two="from .one import name\n")
        self.assertEqual(
            found, ["low.one is in a circle of imports", "low.two is in a circle of imports"]
        )

    def test_modules_that_do_not_know_one_another(self):
        found = self.faults(high_verbs_ill="from .back import name\n", high_verbs_back="name = 1\n")
        self.assertEqual(
            found, ["high.verbs.ill imports high.verbs.back: these do not know one another"]
        )
        found = self.faults(high_verbs_ill="from ..three import two\n")
        self.assertEqual(found, [])

    def test_a_private_name(self):
        self.assertEqual(
            self.faults(high_three="from ..low.two import _hidden\n"),
            ["high.three imports _hidden, a private name of low.two"],
        )


if __name__ == "__main__":
    unittest.main()
