"""Tests of `inrc2pb-solve --model` and `--answer`: models as LP files, and the solution files of
MIP solvers as answers."""

import io
import os
import resource
import shutil
import subprocess
import sys
import tempfile
import unittest
from pathlib import Path
from unittest import mock

from ward import HELPERS, HelperTest, begin_command, run

from inrc2pb.solvers.linear_program import (
    ModelFault,
    ModelSize,
    _write_constraint,
    convert,
    write_linear_program,
)
from inrc2pb.solvers.mip_solution import SolutionFault, read_answer
from inrc2pb.solvers.solvers import answer_of as answer_of_file

HERE = Path(__file__).resolve().parents[1]
SOLUTIONS = HERE / "data" / "solutions"
COMMAND = HELPERS / "inrc2pb-solve"
MAX_LINE = 560

STATUS_OF = {
    "optimal": "OPTIMUM FOUND",
    "stopped": "SATISFIABLE",
    "none": "UNKNOWN",
    "infeasible": "UNSATISFIABLE",
}
BEST = "o 15\nv x1 x3\n"


# The bytes of a long model, the kilobytes that its conversion may take at most, and a program that
# prints what it took. The largest size in /proc is the program's own; `ru_maxrss` may belong to the
# process that started it.
LONG_MODEL = 30_000_000
MAX_MEMORY = 60_000
MEASURED = """
import re, sys
sys.path.insert(0, sys.argv[1])
from inrc2pb.commands.solve import main
main(["--model", sys.argv[2], "--out", sys.argv[3]])
print(re.search("VmHWM: *([0-9]+) kB", open("/proc/self/status").read().replace("\\t", "")).group(1))
"""


def write_model(path, size):
    """Writes a model of about this size: half of it is the objective."""
    terms = " ".join(f"+{100 + number % 30} x{100000 + number}" for number in range(1000))
    count = size // len(terms) // 2
    with open(path, "w", encoding="ascii") as model:
        model.write(f"* #variable= 100999 #constraint= {count}\nmin:")
        model.writelines(f" {terms}" for _ in range(count))
        model.write(" ;\n")
        model.writelines(f"{terms} >= 1 ;\n" for _ in range(count))


def answer_of(text, ended=None):
    """The answer in the text of a solution file."""
    target = io.StringIO()
    read_answer(io.StringIO(text), ended).write(target)
    return target.getvalue()


def _limit_memory():
    """A command that takes 2 GB ends with a fault."""
    resource.setrlimit(resource.RLIMIT_AS, (2 << 30, 2 << 30))


def lp_of(text):
    """The LP file of a model, and its size."""
    target = io.StringIO()
    size = write_linear_program(io.StringIO(text), target)
    return target.getvalue(), size


class NoResult(HelperTest):
    def test_a_result_file_that_is_missing(self):
        missing = self.folder / "week.sol"
        self.assertEqual(
            run("solve", "--answer", missing, "--status", "infeasible"),
            (0, "s UNSATISFIABLE\n", ""),
        )
        self.assertEqual(run("solve", "--answer", missing, "--status", "optimal")[0], 3)
        self.assertEqual(run("solve", "--answer", missing)[0], 3)

    def test_a_result_file_that_is_far_too_long(self):
        huge = self.folder / "week.sol"
        huge.touch()
        os.truncate(huge, 1 << 42)
        self.assert_fault(
            run("solve", "--answer", huge),
            f"inrc2pb-solve: {huge} has more than 256 MiB: this is no answer",
        )
        outcome = answer_of_file(huge)
        self.assertEqual(
            (outcome.answer, outcome.fault),
            ("", f"its result file has a fault: {huge} has more than 256 MiB: this is no answer"),
        )


class LinearPrograms(unittest.TestCase):
    def test_small_model(self):
        text, size = lp_of((SOLUTIONS / "model.opb").read_text())
        self.assertEqual(size, ModelSize(3, 3, 5))
        self.assertEqual(
            text,
            (
                "Minimize\n obj: +10 x1 +20 x2 +5 x3\nSubject To\n c1: +1 x1 +1 x2 >= 1\n c2: +1 x2"
                " +1 x3 >= 1\n c3: -1 x1 -1 x2 -1 x3 >= -2\nBinary\n x1 x2 x3\nEnd\n"
            ),
        )

    def test_an_objective_whose_coefficients_are_zero(self):
        text, size = lp_of(
            "* #variable= 2 #constraint= 1\nmin: +0 x1 +0 x2 ;\n+1 x1 +1 x2 >= 1 ;\n"
        )
        self.assertEqual(size, ModelSize(2, 1, 0))
        self.assertEqual(
            text,
            "Minimize\n obj: +0 x1 +0 x2\nSubject To\n c1: +1 x1 +1 x2 >= 1\nBinary\n x1 x2\nEnd\n",
        )

    def test_without_an_objective(self):
        text, size = lp_of("* #variable= 1 #constraint= 1\n+1 x1 >= 1 ;\n")
        self.assertEqual(size, ModelSize(1, 1, 0))
        self.assertIn(" obj: 0 x1\nSubject To\n c1: +1 x1 >= 1\n", text)
        text, size = lp_of("* #variable= 1 #constraint= 1\nmin: ;\n+1 x1 >= 1 ;\n")
        self.assertEqual(size, ModelSize(1, 1, 0))
        self.assertIn(" obj: +0 x1\nSubject To\n c1: +1 x1 >= 1\n", text)

    def test_long_statements_come_in_pieces(self):
        count = 60_000
        objective = "".join(f" +{7 * (1 + n % 5)} x{n}" for n in range(1, count + 1))
        row = " ".join(f"+1 x{n}" for n in range(1, count + 1))
        text, size = lp_of(
            f"* #variable= {count} #constraint= 2\nmin:{objective} ;\n{row} >= 1 ;\n-1 x1 >= -1 ;\n"
        )
        self.assertEqual(size, ModelSize(count, 2, 7))
        self.assertLessEqual(max(map(len, text.split("\n"))), MAX_LINE)
        words = text.split()
        self.assertEqual(
            " ".join(words[words.index("obj:") + 1 : words.index("Subject")]), objective.strip()
        )
        self.assertEqual(
            " ".join(words[words.index("c1:") + 1 : words.index("c2:")]), f"{row} >= 1"
        )

    def test_longest_terms_fit_a_line(self):
        terms = " ".join([f"-{'9' * 17} x{'9' * 10}"] * 100)
        # The row of the last constraint that a header can announce.
        row = io.StringIO()
        _write_constraint(int("9" * 10), f"{terms} >= -{'9' * 17}", row, "x" + "9" * 10)
        self.assertLessEqual(max(map(len, row.getvalue().split("\n"))), MAX_LINE)

    def test_faults(self):
        rows = {
            "": "does not begin",
            "* #variable= 1\n": "does not begin",
            "* #variable= 1 #constraint= 1\n+1 x1 >= 1": "middle of a statement",
            "* #variable= 1 #constraint= 2\n+1 x1 >= 1 ;\n": "announces 2",
            "* #variable= 1 #constraint= 1\n+1 x1 = 1 ;\n": "no `>=`",
            "* #variable= 1 #constraint= 1\n+1 ~x1 >= 1 ;\n": "no linear terms",
            "* #variable= 1 #constraint= 1\nmin: +1 x1 x2 ;\n+1 x1 >= 1 ;\n": (
                "no linear terms as `inrc2pb encode` writes them: x2$"
            ),
            "* #variable= 1 #constraint= 1\nmin: +1 x1+1 x2 ;\n+1 x1 >= 1 ;\n": (
                "no linear terms .*: \\+1 x1\\+1 x2$"
            ),
            f"* #variable= 1 #constraint= 1\n+1 x1 +{'1' * 40} x2 >= 1 ;\n": (
                f"no linear terms .*: \\+{'1' * 40} x2$"
            ),
            f"* #variable= 1 #constraint= 1\n+1 x1 +1 x{'1' * 11} >= 1 ;\n": "no linear terms",
            f"* #variable= 1 #constraint= 1\n+1 x1 >= {'1' * 18} ;\n": (
                "degree of 17 digits or less"
            ),
            f"* #variable= {'9' * 11} #constraint= 1\n": "does not begin",
            "* #variable= 9 #constraint= 1\nmin: +1 x9 +1 x10 ;\n+1 x1 >= 1 ;\n": (
                "variables after x9, the last that it announces"
            ),
            "* #variable= 10 #constraint= 1\n+1 x9 +1 x11 +1 x2 >= 1 ;\n": (
                "variables after x10, the last that it announces"
            ),
        }
        for model, says in rows.items():
            with self.subTest(model=model), self.assertRaisesRegex(ModelFault, says):
                lp_of(model)

    def test_files_that_are_no_models_need_little_memory(self):
        for text, says in (
            ("* #variable=" * 100, "does not begin with"),
            ("* #variable= 1 #constraint= 1\n" + "+1 x1 " * 2_000_000, "too long"),
        ):
            source = io.StringIO(text)
            with self.assertRaisesRegex(ModelFault, says):
                write_linear_program(source, io.StringIO())
            self.assertLess(source.tell(), len(text))

    def test_an_lp_file_is_whole_or_as_it_was(self):
        with tempfile.TemporaryDirectory() as folder:
            model = Path(folder, "week.opb")
            lp = Path(folder, "week.lp")
            lp.write_text("old")
            model.write_text((SOLUTIONS / "model.opb").read_text() + "+1 x1")
            with self.assertRaises(ModelFault):
                convert(model, lp)
            self.assertEqual((lp.read_text(), len(list(Path(folder).iterdir()))), ("old", 2))
            convert(SOLUTIONS / "model.opb", lp)
            self.assertEqual(
                (lp.read_text()[:8], len(list(Path(folder).iterdir()))), ("Minimize", 2)
            )

    def test_a_long_model_needs_little_memory(self):
        with tempfile.TemporaryDirectory() as folder:
            model = Path(folder, "week.opb")
            write_model(model, LONG_MODEL)
            words = [
                sys.executable,
                "-c",
                MEASURED,
                str(HELPERS),
                str(model),
                str(Path(folder, "week.lp")),
            ]
            ran = subprocess.run(words, stdout=subprocess.PIPE, check=True, timeout=600)
            self.assertLess(int(ran.stdout), MAX_MEMORY)


class Solutions(unittest.TestCase):
    def test_stored_files(self):
        for path in sorted(SOLUTIONS.glob("*-*.sol")):
            with self.subTest(file=path.name):
                status = STATUS_OF[path.stem.split("-")[1]]
                found = BEST if status in ("OPTIMUM FOUND", "SATISFIABLE") else ""
                self.assertEqual(answer_of(path.read_text()), f"s {status}\n{found}")

    def test_lists_do_not_say_how_the_solver_ended(self):
        gurobi = (SOLUTIONS / "gurobi.sol").read_text()
        self.assertEqual(answer_of(gurobi), f"s SATISFIABLE\n{BEST}")
        self.assertEqual(answer_of(gurobi, "optimal"), f"s OPTIMUM FOUND\n{BEST}")
        self.assertEqual(answer_of("x1 1\nx2 0\n"), "s SATISFIABLE\nv x1\n")
        self.assertEqual(answer_of(""), "s UNKNOWN\n")
        self.assertEqual(answer_of("", "infeasible"), "s UNSATISFIABLE\n")

    def test_toulbar2_has_to_print_names(self):
        text = (
            (SOLUTIONS / "toulbar2-optimal.sol").read_text().replace("x1=v1 x2=v0 x3=v1", "1 0 1")
        )
        with self.assertRaisesRegex(
            SolutionFault, "^toulbar2 printed no names of variables: give it the option -s=3$"
        ):
            answer_of(text)

    def test_the_last_solution_of_toulbar2_counts(self):
        text = (SOLUTIONS / "toulbar2-stopped.sol").read_text()
        worse = "New solution: 25 (0 backtracks, 0 nodes, depth 2)\n x1=v0 x2=v1 x3=v1\n"
        self.assertEqual(
            answer_of(text.replace("New solution", f"{worse}New solution")),
            f"s SATISFIABLE\n{BEST}",
        )

    def test_an_endless_line_ends_at_a_limit(self):
        for text in ("Optimal - objective value 15" + "0" * 100, "x1 1\n" * 300):
            with mock.patch.multiple("inrc2pb.solvers.mip_solution", MAX_BYTES=1000, MAX_LINE=100):
                with self.assertRaisesRegex(SolutionFault, "this is no answer"):
                    answer_of(text)
        ran = subprocess.run(
            [str(COMMAND), "--answer", "/dev/zero"],
            stdout=subprocess.PIPE,
            stderr=subprocess.PIPE,
            preexec_fn=_limit_memory,
        )
        self.assertEqual((ran.returncode, ran.stdout), (1, b""), ran.stderr)
        self.assertIn(b"this is no answer", ran.stderr)

    def test_a_gap_is_no_proof(self):
        text = "Optimal (within gap tolerance) - objective value 15.00000000\n 0 x1 1 10\n"
        self.assertEqual(answer_of(text), "s SATISFIABLE\no 15\nv x1\n")

    def test_values_are_integers_but_for_a_millionth(self):
        for value in ("1.000001", "0.999999", "1e0", "+1"):
            self.assertEqual(answer_of(f"x1 1\nx2 {value}\n"), "s SATISFIABLE\nv x1 x2\n")
        for value in ("0.0000009", "-0.0000009", "-0", "1e-9"):
            self.assertEqual(answer_of(f"x1 1\nx2 {value}\n"), "s SATISFIABLE\nv x1\n")
        for value in ("nan", "inf", "v1"):
            with self.subTest(value=value), self.assertRaisesRegex(
                SolutionFault, "line 2: '.*' is no value for x2"
            ):
                answer_of(f"x1 1\nx2 {value}\n")

    def test_a_value_that_is_no_integer_has_its_advice(self):
        for values, says in (
            (
                ("1.0000011", "0.9999989", "0.0000011", "-1e-5", "0.99999", "1.00099"),
                "off by more than a millionth: .*IntFeasTol=1e-9",
            ),
            (
                ("0.5", "2", "-1", "0.002", "1e999"),
                "neither 0 nor 1: let the solver solve the model with integers",
            ),
        ):
            for value in values:
                with self.subTest(value=value), self.assertRaisesRegex(
                    SolutionFault, f"line 2: x2 is {value}, {says}"
                ):
                    answer_of(f"x1 1\nx2 {value}\n")

    def test_faults(self):
        rows = {
            "hello\n": "no known result file",
            "c Problem:\nj 1 1\n": "line 1 is of no known result file: c Problem:",
            **{
                f"{line}\n": (
                    f"^line 1 shows that this is an answer already: {line}: give it to inrc2pb"
                    " decode as it is$"
                )
                for line in ("s UNKNOWN", "s OPTIMUM FOUND", "o 320", "v x1 -x2")
            },
            "x1 1\ny2 1\n": "line 2: 'y2'",
            "x1 1\nx2\n": "line 2 has no value",
            "x1 0\n": "no variable that is 1",
            "Optimal - objective value 0\n": "no variable that is 1",
            "Problem:\nStatus:     OPTIMAL\n": "with integers",
        }
        for text, says in rows.items():
            with self.subTest(text=text), self.assertRaisesRegex(SolutionFault, says):
                answer_of(text)

    def test_cbc_that_was_stopped_before_it_had_a_roster(self):
        values = " - objective value 5.5\n      0 x1  1 0\n      1 x2  0.5 0\n"
        self.assertEqual(answer_of(f"Stopped on time{values}"), "s UNKNOWN\n")
        with self.assertRaisesRegex(SolutionFault, "neither 0 nor 1"):
            answer_of(f"Optimal{values}")


class InstalledSolvers(unittest.TestCase):
    SOLVERS = {
        "cbc": ["cbc", "{lp}", "solve", "solution", "{sol}"],
        "glpsol": ["glpsol", "--lp", "{lp}", "-o", "{sol}"],
        "highs": ["highs", "{lp}", "--solution_file", "{sol}"],
    }

    def test_optimum(self):
        for name, command in self.SOLVERS.items():
            if not shutil.which(name):
                continue
            with self.subTest(solver=name), tempfile.TemporaryDirectory() as folder:
                lp = Path(folder, "model.lp")
                sol = Path(folder, "model.sol")
                convert(SOLUTIONS / "model.opb", lp)
                words = [word.format(lp=lp, sol=sol) for word in command]
                subprocess.run(words, stdout=subprocess.DEVNULL, check=True, timeout=600)
                self.assertEqual(answer_of(sol.read_text()), f"s OPTIMUM FOUND\n{BEST}")

    def test_solvers_that_print_their_solution(self):
        for name, command in {
            "symphony": ["symphony", "-L", "{lp}"],
            "toulbar2": ["toulbar2", "{opb}", "-s=3"],
        }.items():
            if not shutil.which(name):
                continue
            with self.subTest(solver=name), tempfile.TemporaryDirectory() as folder:
                lp = Path(folder, "model.lp")
                convert(SOLUTIONS / "model.opb", lp)
                words = [word.format(lp=lp, opb=SOLUTIONS / "model.opb") for word in command]
                ran = subprocess.run(
                    words, stdout=subprocess.PIPE, stderr=subprocess.DEVNULL, text=True, timeout=600
                )
                self.assertEqual(answer_of(ran.stdout), f"s OPTIMUM FOUND\n{BEST}")


class Command(unittest.TestCase):
    def run_it(self, *words, given=""):
        with begin_command("solve", *words, stdin=subprocess.PIPE, text=True) as command:
            printed, said = command.communicate(given)
        return subprocess.CompletedProcess(words, command.returncode, printed, said)

    def test_a_cut_model(self):
        cut = "* #variable= 1 #constraint= 2\n+1 x1 >= 1 ;\n"
        advice = "; the printed LP text is cut too: do not use it"
        with tempfile.TemporaryDirectory() as folder:
            for words, ends in (((), advice), (("--out", Path(folder, "week.lp")), "")):
                ran = self.run_it("--model", *words, given=cut)
                self.assertEqual(ran.returncode, 1)
                self.assertTrue(
                    ran.stderr.endswith(f"it is cut, so encode the week again{ends}\n"), ran.stderr
                )

    def test_both_directions(self):
        model = (SOLUTIONS / "model.opb").read_text()
        ran = self.run_it("--model", given=model)
        self.assertEqual((ran.returncode, ran.stdout), (0, lp_of(model)[0]))
        with tempfile.TemporaryDirectory() as folder:
            lp = Path(folder, "model.lp")
            self.assertEqual(
                self.run_it("--model", SOLUTIONS / "model.opb", "--out", lp).returncode, 0
            )
            self.assertEqual(lp.read_text(), ran.stdout)
        ran = self.run_it("--answer", SOLUTIONS / "cbc-optimal.sol")
        self.assertEqual((ran.returncode, ran.stdout), (0, f"s OPTIMUM FOUND\n{BEST}"))

    def test_faults_are_one_line(self):
        for words in (
            ("--answer", "missing.sol"),
            ("--model", "missing.opb"),
            ("--answer", SOLUTIONS / "model.opb"),
        ):
            with self.subTest(words=words):
                ran = self.run_it(*words)
                self.assertNotEqual(ran.returncode, 0)
                self.assertEqual((ran.stdout, ran.stderr.count("\n")), ("", 1))


if __name__ == "__main__":
    unittest.main()
