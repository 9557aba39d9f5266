"""What the output of `rt check` says of each function: which of its own goals are open.

A function that only calls one without a proof has no open goal of its own. `rt check` prints, for
each function in turn, a note for each goal that its search left open, with the place in the source,
and then the function's line:

    note: src/slots.rt:80:5: it is not proved that what the function ensures holds
        when it returns (`returns`)
    fn rota_layout::cursor::Cursor::exactly: no proof: expected answers in ..; `search` did
        not prove `returns`; it calls `..`, which ..

An answer that does not prove its goal has an error line of its own, which names the proof file;
that names the function. Functions that call one another in a cycle have one folder of proofs,
`+NAME`, and each of them has the notes of all; there a goal begins with the name of its function.
"""

import re
from typing import Dict, FrozenSet, List, NamedTuple, Optional, Set, Tuple

FUNCTION_LINE = re.compile(r"fn (\S+): (.*)")
NOTE = re.compile(r"note: (src/\S+?):(\d+):\d+: .*?\(`([^`]+)`\)")
ERROR = re.compile(r"(?:note: )?(?:\./)?(\S+?\.(?:rt|antt)):\d+:\d+: error: (.*)")
GOAL = re.compile(r"`([^`]+)`: (.*)")
UNPROVED = re.compile(r"did not prove ((?:`[^`]+`(?:, | and )?)+)")
# The error names what the edit took away, or has its type no longer: the answer was not tried on
# the goal.
NO_LONGER_FITS = re.compile(
    r"expected type|the two types (?:first )?differ|differ only|has no field|is not in scope|has no"
    r" `|was not admitted|is no name"
)
FOLLOWS = re.compile(r"declarations? that depends? on ")
CYCLE = re.compile(r"proofs/(.*?)/?\+\w+/")
# Errors of reading, which say nothing of a goal.
UNREADABLE = re.compile(
    r"is not in scope|has no field|is no name|operand is missing|expected the end|cannot continue"
)
# The last line of a check of some functions alone.
ONLY = re.compile(r"only=(\d+) proved=(\d+)$")
COMPILER_ERROR = re.compile(r"^error(\[|:)|\berror\[[\w-]+\]", re.M)


class Goal(NamedTuple):
    """A goal that refused an edit: the function's path, `crate::module::function`, the goal's name,
    and whether the only reason is an answer that no longer fits."""

    function: str
    name: str
    only_answer: bool


class Function(NamedTuple):
    """A function without a proof: its path, its own open goals, and where they stand in the source;
    both are empty if it only waits for a function that it calls."""

    path: str
    goals: FrozenSet[Goal]
    lines: FrozenSet[Tuple[str, int]]


class Verdict(NamedTuple):
    """What a check said: whether the crate, or the functions that it was about, are proved, None if
    it did not come to that; the functions with open goals of their own; and the errors that belong
    to no function, or are no goal's."""

    proved: Optional[bool]
    functions: Tuple[Function, ...]
    others: Tuple[str, ...]


def function_of(path: str) -> str:
    """The path of the function whose body has the closure of this path; of another function the
    path itself."""
    head, closure, rest = path.partition("::fn::")
    if not closure:
        return path
    # A method's type begins with a capital.
    names = rest.split("::")
    return "::".join([head, *names[: 2 if names[0][:1].isupper() else 1]])


def proof_folder(function: str) -> str:
    """The folder of the function's proof files below the crate's folder."""
    return "proofs/" + function.partition("::")[2].replace("::", "/") + "/"


def goal_of(message: str) -> Tuple[str, bool]:
    """The goal that an error of an answer names, and whether the answer no longer fits."""
    found = GOAL.match(message)
    name, told = (found[1], found[2]) if found else ("answer", message)
    return name, bool(NO_LONGER_FITS.search(told.partition(". ")[0]))


def in_cycle(function: str, goal: str) -> str:
    """The function of the goal of a cycle, which begins with its name; this one is of the cycle."""
    return f"{function.rpartition('::')[0]}::{goal.partition('-')[0]}"


class Reader:
    """Reads the output of a check, line by line."""

    def __init__(self) -> None:
        self.errors: List[Tuple[str, str]] = []
        self.notes: List[Tuple[str, int, str]] = []
        # For each function its goals, each with whether an answer alone refuses it.
        self.goals: Dict[str, Dict[str, bool]] = {}
        self.lines: Dict[str, Set[Tuple[str, int]]] = {}
        # For each note the functions that have it.
        self.noted: Dict[Tuple[str, int, str], Set[str]] = {}
        self.unexplained: Set[str] = set()
        self.proved: Optional[bool] = None

    def read(self, line: str) -> None:
        """Reads the next line."""
        note = NOTE.match(line)
        function = FUNCTION_LINE.match(line)
        error = ERROR.match(line)
        only = ONLY.match(line)
        if note:
            self.notes.append((note[1], int(note[2]), note[3]))
        elif function:
            self.read_function(function[1], function[2])
        elif error and not FOLLOWS.search(error[2]):
            self.errors.append((error[1], error[2]))
        elif line.startswith("logic="):
            self.proved = line.startswith("logic=proved")
        elif only:
            self.proved = only[1] == only[2]

    def read_function(self, path: str, told: str) -> None:
        """Reads a function's line; the notes before it are the function's."""
        notes = self.notes
        self.notes = []
        # A closure can be `proved where its callers give what it asks`.
        if told.startswith(("proved", "assumed")):
            return
        name = function_of(path)
        unproved = UNPROVED.search(told)
        goals = {goal for _, _, goal in notes} | set(
            re.findall(r"`([^`]+)`", unproved[1]) if unproved else ()
        )
        self.goals.setdefault(name, {}).update({goal: False for goal in goals})
        self.lines.setdefault(name, set()).update((file, line) for file, line, _ in notes)
        for note in notes:
            self.noted.setdefault(note, set()).add(name)
        if not goals and "it calls" not in told:
            self.unexplained.add(name)

    def part_cycles(self) -> None:
        """A note that several functions have is of one of them."""
        for (file, line, goal), names in self.noted.items():
            owner = in_cycle(min(names), goal)
            for name in names if len(names) > 1 and owner in names else ():
                if name != owner:
                    self.goals[name].pop(goal, None)
                    self.lines[name].discard((file, line))

    def owner_of(self, file: str, goal: str, folders: Dict[str, str]) -> Optional[str]:
        """The function of an error in this proof file that names this goal; None if it is of no
        function without a proof."""
        cycle = CYCLE.match(file)
        crate = next(iter(self.goals), "").partition("::")[0]
        name = in_cycle("::".join([crate, *cycle[1].split("/"), ""]), goal) if cycle else ""
        if name in self.goals:
            return name
        return next(
            (function for folder, function in folders.items() if file.startswith(folder)), None
        )

    def verdict(self) -> Verdict:
        """What was read."""
        others = []
        self.part_cycles()
        folders = {proof_folder(name): name for name in self.goals}
        for file, message in self.errors:
            goal, only_answer = goal_of(message)
            owner = self.owner_of(file, goal, folders)
            if owner is None:
                others.append(f"{file}: {message}")
                continue
            self.goals[owner].setdefault(goal, only_answer)
        for name in self.unexplained:
            if not self.goals[name]:
                self.goals[name]["proof"] = True
        found = [
            Function(
                name,
                frozenset(Goal(name, goal, bad) for goal, bad in goals.items()),
                frozenset(self.lines[name]),
            )
            for name, goals in self.goals.items()
            if goals
        ]
        return Verdict(self.proved, tuple(found), tuple(others))


def verdict_of(output: str) -> Verdict:
    """What the output of a check says."""
    reader = Reader()
    for line in output.splitlines():
        reader.read(line)
    return reader.verdict()


def is_readable(verdict: Verdict) -> bool:
    """Whether the prover could read and compile all that it was given."""
    unread = [
        one
        for one in verdict.others
        if one.startswith(("src/", "specs/")) and UNREADABLE.search(one)
    ]
    return verdict.proved is not None and not unread
