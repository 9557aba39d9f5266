"""Processes that search parts and cases of a plan beside this one: Python computes in one thread of
a process at a time.

Nothing depends on a right answer: rows are a roster only after they were checked. A process that
ends or hangs costs time.
"""

import contextlib
import functools
import os
import pickle
import subprocess
import sys
import threading
import time
from multiprocessing.connection import Connection
from pathlib import Path
from typing import List, NamedTuple, Optional, Sequence, Type, TypeVar

from ..programs.clock import PAUSE, Clock, TimeIsOver
from ..programs.processes import Processes
from ..solvers.answers import MAX_FAULTS, SolverFault
from ..solvers.clp_child import exit_without_parent
from ..solvers.linear_solvers import LinearSolver
from .case_search import CaseSearch, CaseTask, Examined
from .part_search import Dive, Done, PartSearch
from .pricing import Crews, NurseWeek, Pricing
from .row_search import Known, Take
from .windows import Window

# Seconds that a process has beyond the end of the time.
GRACE = 2.0
# The task of a process. Its words are the file of all that is known, and the folder of its modules.
_START = f"import sys; sys.path[:] = sys.argv[2:]; from {__name__} import main; main(sys.argv[1])"
_Answer = TypeVar("_Answer")


class _Rows(NamedTuple):
    """Rows of all nurses, and the name of what found them."""

    rows: List[NurseWeek]
    finder: str


class _Running(NamedTuple):
    """A process, with the ends of its pipes in this one."""

    process: "subprocess.Popen[bytes]"
    tasks: Connection
    answers: Connection


class Worker:
    """A process with what is known of a plan, and with solvers of its own, which does what a
    PartSearch and a CaseSearch do. It starts with the first task. After some faults in a row, or if
    all of its solvers fail, a task ends with a SolverFault.
    """

    def __init__(self, solver: LinearSolver, known: Path) -> None:
        self._solver = solver
        self._known = known
        self._running: Optional[_Running] = None
        self._faults = 0

    def improve(self, clock: Clock, take: Take, window: Window, rows: List[NurseWeek]) -> Done:
        """Looks for better rows of a window."""
        return self._do(Done, ("improve", window, rows), clock, take) or Done(False)

    def dive(self, clock: Clock, take: Take, task: Dive) -> Done:
        """Fixes rows of all nurses."""
        return self._do(Done, ("dive", task), clock, take) or Done(False)

    def close(self, clock: Clock, take: Take, task: CaseTask) -> Examined:
        """Adds rows until the prices of a case prove its target, or they cannot."""
        found = self._do(Examined, ("close", task), clock, take)
        if found is None:
            raise TimeIsOver
        return found

    def _do(
        self, kind: Type[_Answer], task: Sequence[object], clock: Clock, take: Take
    ) -> Optional[_Answer]:
        """Does a task; None if the time is over."""
        while clock.left() > 0:
            if self._faults == MAX_FAULTS:
                raise SolverFault(
                    "processes of the search end again and again, perhaps for lack of memory: type"
                    " the command once more, which goes on from the best roster"
                )
            found: object = None
            with contextlib.suppress(OSError, EOFError, pickle.UnpicklingError):
                found = self._answer(task, clock, take)
            if isinstance(found, SolverFault):
                raise found
            if isinstance(found, kind):
                self._faults = 0
                return found
            self.end()
            self._faults += 1
        return None

    def _answer(self, task: Sequence[object], clock: Clock, take: Take) -> object:
        """The last answer to a task; those before it are rows. None if it does not come in time."""
        running = self._running = self._running or self._start()
        running.tasks.send((*task, clock.left()))
        late = time.monotonic() + clock.left() + GRACE
        while not clock.stopped and time.monotonic() < late:
            if running.answers.poll(PAUSE):
                answer = running.answers.recv()
                if not isinstance(answer, _Rows):
                    return answer
                take(*answer)
        return None

    def _start(self) -> _Running:
        words = [
            sys.executable,
            *(["-B"] if sys.dont_write_bytecode else []),
            "-I",
            "-S",
            "-c",
            _START,
        ]
        process = self._solver.open([*words, str(self._known), *sys.path])
        assert process.stdin and process.stdout
        tasks = os.dup(process.stdin.fileno())
        answers = os.dup(process.stdout.fileno())
        return _Running(
            process, Connection(tasks, readable=False), Connection(answers, writable=False)
        )

    def end(self) -> None:
        """Ends the process."""
        if self._running:
            self._running.tasks.close()
            self._running.answers.close()
            self._solver.shut(self._running.process)
            self._running = None


def workers(known: Known, solvers: Sequence[LinearSolver]) -> List[Worker]:
    """A process for each of these solvers."""
    if not solvers:
        return []
    file = solvers[0].folder / "known.pickle"
    file.write_bytes(pickle.dumps(known))
    return [Worker(solver, file) for solver in solvers]


class _Tasks:
    """The tasks of a process."""

    def __init__(self, known: Known, solver: LinearSolver) -> None:
        self._known = known
        self._solver = solver

    @functools.cached_property
    def _parts(self) -> PartSearch:
        return PartSearch(
            Pricing(self._known.plan, Crews(self._known.plan), lambda: None),
            self._known,
            self._solver,
        )

    @functools.cached_property
    def _cases(self) -> CaseSearch:
        return CaseSearch.begin(self._known, Crews(self._known.plan), self._solver, lambda: None)

    def do(self, name: str, clock: Clock, take: Take, words: Sequence[object]) -> object:
        """Does the task of this name; its answer."""
        search = self._cases if name == "close" else self._parts
        try:
            answer: object = getattr(search, name)(clock, take, *words)
            return answer
        except SolverFault as fault:
            return fault


def main(known: str) -> None:
    """Does the tasks that come on standard input. What solvers print goes to standard error."""
    threading.Thread(target=exit_without_parent, args=(os.getppid(),), daemon=True).start()
    requests = Connection(os.dup(0), writable=False)
    answers = Connection(os.dup(1), readable=False)
    os.dup2(2, 1)
    solver = LinearSolver(Processes(), Path.cwd(), lambda line: None)
    tasks = _Tasks(pickle.loads(Path(known).read_bytes()), solver)

    def take(rows: List[NurseWeek], finder: str) -> bool:
        answers.send(_Rows(rows, finder))
        return True

    with contextlib.suppress(EOFError):
        while True:
            name, *words, seconds = requests.recv()
            answers.send(tasks.do(name, Clock(seconds), take, words))
