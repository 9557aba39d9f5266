"""Makes a case that fails smaller, as long as it fails."""

import re
import time

from drafts import files_of, read_roster, read_week, solution_text

NUMBER = re.compile(r"\b\d+\b")


def consistent(week, rosters):
    """The week and rosters without what speaks of names that are gone."""
    week.history = {nurse: one for nurse, one in week.history.items() if nurse in week.nurses}
    for one in week.history.values():
        one.last = one.last if one.last in week.shifts else "None"
    for one in week.nurses.values():
        one.contract = (
            one.contract
            if one.contract in week.contracts
            else next(iter(week.contracts), one.contract)
        )
        one.skills = [skill for skill in one.skills if skill in week.skills]
    week.forbidden = {pair for pair in week.forbidden if set(pair) <= set(week.shifts)}
    week.required = {
        (d, s, k): pair
        for (d, s, k), pair in week.required.items()
        if s in week.shifts and k in week.skills
    }
    week.requests = [
        (n, s, d)
        for n, s, d in week.requests
        if n in week.nurses and (s == "Any" or s in week.shifts)
    ]
    return week, {
        name: [
            (n, d, s, k)
            for n, d, s, k in roster
            if n in week.nurses and s in week.shifts and k in week.skills
        ]
        for name, roster in rosters.items()
    }


class Shrinking:
    """A case that fails, and what makes it smaller; after some seconds nothing more is tried."""

    def __init__(self, case, fails, seconds):
        self.case = case
        self.fails = fails
        self.end = time.monotonic() + seconds

    def accepts(self, case):
        if case == self.case or time.monotonic() > self.end or not self.fails(case):
            return False
        self.case = case
        return True

    def drop(self, items, case_of):
        """Drops items as long as the case of the others fails: all, then pieces of half the length,
        down to one."""
        size = len(items)
        while size:
            begin = 0
            while begin < len(items):
                fewer = items[:begin] + items[begin + size :]
                if self.accepts(case_of(fewer)):
                    items = fewer
                else:
                    begin += size
            size //= 2

    def drop_files(self):
        self.drop(
            [name for name in self.case if name not in ("sce", "his", "week")],
            lambda kept: {
                name: text
                for name, text in self.case.items()
                if name in ("sce", "his", "week", *kept)
            },
        )

    def drop_of_week(self):
        """What is asked for, then names with all that speaks of them, then cells. Whether the files
        are laid out plainly."""
        try:
            self.accepts(self.plain())
            for name in (
                "required",
                "forbidden",
                "requests",
                "nurses",
                "shifts",
                "skills",
                "contracts",
                "fix",
                "roster",
            ):
                week, rosters = self.read()
                items = (
                    rosters.get(name, [])
                    if name in ("fix", "roster")
                    else list(getattr(week, name))
                )
                self.drop(items, lambda kept, name=name: self.only(name, kept))
            return self.case == self.plain()
        except (IndexError, KeyError, ValueError):
            return False  # a file with a fault

    def read(self):
        rosters = {
            name: read_roster(self.case[name]) for name in ("roster", "fix") if name in self.case
        }
        return read_week(self.case["sce"], self.case["his"], self.case["week"]), rosters

    def plain(self):
        return self.only("requests", self.read()[0].requests)

    def only(self, name, kept):
        """The case with these items of the week or of a roster alone."""
        week, rosters = self.read()
        if name in rosters:
            rosters[name] = kept
        else:
            table = getattr(week, name)
            setattr(
                week,
                name,
                {key: table[key] for key in kept} if isinstance(table, dict) else type(table)(kept),
            )
        week, rosters = consistent(week, rosters)
        return {
            **self.case,
            **files_of(week),
            **{name: solution_text(week, table) for name, table in rosters.items()},
        }

    def lower_numbers(self):
        for name in self.case:
            for place in range(len(NUMBER.findall(self.case[name]))):
                number = list(NUMBER.finditer(self.case[name]))[place]
                for lower in sorted({0, 1, int(number.group()) // 2, int(number.group()) - 1}):
                    text = (
                        self.case[name][: number.start()]
                        + str(lower)
                        + self.case[name][number.end() :]
                    )
                    if 0 <= lower < int(number.group()) and self.accepts({**self.case, name: text}):
                        break

    def drop_text(self, names):
        """Lines, words and letters of these files."""
        for name in names:
            for parts in (r"[^\n]*\n|[^\n]+", r"\s+|[(),=]|[^\s(),=]+", r"(?s:.)"):
                self.drop(
                    re.findall(parts, self.case[name]),
                    lambda kept, name=name: {**self.case, name: "".join(kept)},
                )


def shrunk(case, fails, seconds=20):
    """The smallest case that was found at which `fails` is still true."""
    shrinking = Shrinking(case, fails, seconds)
    before = None
    while before != shrinking.case:
        before = shrinking.case
        shrinking.drop_files()
        is_plain = shrinking.drop_of_week()
        shrinking.lower_numbers()
        shrinking.drop_text(
            [name for name in shrinking.case if name in ("answer", "cuts") or not is_plain]
        )
    return shrinking.case
