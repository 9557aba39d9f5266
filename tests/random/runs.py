"""Runs of the built program on a case: texts by the option that names them, and what is wrong with
an answer. If Rattle's own compiler has built it too, both builds have to do the same."""

import os
import subprocess

from drafts import SOFT_RULES

FILES = {
    "sce": "scenario.txt",
    "his": "history.txt",
    "week": "week.txt",
    "fix": "fix.txt",
    "roster": "roster.txt",
    "answer": "answer.txt",
}


class Wrong(Exception):
    """What the program did is not what the documents say: in what it differs, and how."""

    def __init__(self, kind, how):
        super().__init__(f"{kind}: {how}")
        self.kind = kind


def builds(program):
    """The program and, if it lies beside it, the same as Rattle's own compiler has built it."""
    path = os.path.abspath(program)
    return [path, *filter(os.path.exists, [f"{path}.by-rattle"])]


def same_by_all(programs, run):
    """What `run` says of each of these builds: of all the same."""
    first, *others = map(run, programs)
    for other in others:
        if other != first:
            raise Wrong("compilers", f"{str(other)[:400]} is not {str(first)[:400]}")
    return first


def report_text(objective, cost, last=None):
    """The report of `decode`: the costs of the soft rules in their order, and the answer's last `o`
    value."""
    lines = ["status SATISFIABLE", f"objective {objective}", f"penalty {sum(cost)}"]
    lines += [f"{rule} {number}" for rule, number in zip(SOFT_RULES, cost)] + (
        [] if last is None else [f"last o {last}"]
    )
    return "".join(f"{line}\n" for line in lines)


class Runs:
    """A folder with a case's files, and the runs there. A case that has the text `early` is one
    with that option."""

    def __init__(self, program, folder):
        self.programs = builds(program)
        self.folder = folder
        self.case = {}
        self.shown = ""

    def path(self, name):
        return f"{self.folder}/{name}"

    def put(self, case):
        """The folder's files are those of the case; only what differs from the case before is
        written."""
        for name, file in FILES.items():
            if name in case and case[name] != self.case.get(name):
                with open(self.path(file), "w", encoding="latin-1", newline="") as opened:
                    opened.write(case[name])
        self.case = dict(case)

    def words(self, command, *words):
        week = [
            word
            for name in ("sce", "his", "week", "fix")
            if name in self.case
            for word in (f"--{name}", FILES[name])
        ]
        return [command, *week, *["--early"] * ("early" in self.case), *words]

    def run(self, command, *words):
        """The status, standard output and standard error of a run."""
        return self.ended(self.words(command, *words))[:3]

    def decode(self, pieces=None):
        """As `run`, and the solution file, or None; with pieces, those of an answer at standard
        input."""
        answer = [] if pieces else ["--answer", "answer.txt"]
        return self.ended(self.words("decode", "--sol", "solution.txt", *answer), pieces)

    def ended(self, words, pieces=None):
        """How the program ends, in each of its builds."""
        self.shown = " ".join(["inrc2pb", *words]) + (
            f" < answer.txt, in pieces of {', '.join(str(len(piece)) for piece in pieces)} bytes"
            if pieces
            else ""
        )
        return same_by_all(self.programs, lambda program: self.ended_by(program, words, pieces))

    def ended_by(self, program, words, pieces):
        """The status, standard output and standard error of a build, and its solution file, or
        None."""
        solution = self.path("solution.txt")
        if os.path.exists(solution):
            os.remove(solution)
        process = subprocess.Popen(
            [program, *words],
            cwd=self.folder,
            stdout=subprocess.PIPE,
            stderr=subprocess.PIPE,
            stdin=subprocess.PIPE if pieces else subprocess.DEVNULL,
        )
        try:
            for piece in pieces or ():
                process.stdin.write(piece.encode("latin-1"))
                process.stdin.flush()
        except BrokenPipeError:
            pass
        try:
            out, err = process.communicate(timeout=60)
        except subprocess.TimeoutExpired:
            process.kill()
            raise Wrong("no end", "after a minute") from None
        ended = process.returncode, out.decode("latin-1"), err.decode("latin-1")
        if not os.path.exists(solution):
            return (*ended, None)
        with open(solution, encoding="latin-1", newline="") as opened:
            return (*ended, opened.read())
