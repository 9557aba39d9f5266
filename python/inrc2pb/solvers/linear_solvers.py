"""The solver of a search: Clp's library, in a process of its own. Nothing depends on a right
answer."""

import shutil
import subprocess
from pathlib import Path
from typing import Callable, Dict, Sequence

from ..programs.processes import Processes
from .resident_program import Child, LinearProgram

INSTALL = "install it (Debian: apt-get install coinor-cbc)"


def is_installed() -> bool:
    """Whether there is cbc or clp: each brings Clp's library."""
    return any(map(shutil.which, ("cbc", "clp")))


class LinearSolver:
    """A solver with a process and files of its own in a folder."""

    def __init__(self, processes: Processes, folder: Path, warn: Callable[[str], None]) -> None:
        self._processes = processes
        self.folder = folder
        self.warn = warn
        self._child = Child(processes, folder)
        self._beside: Dict[int, "LinearSolver"] = {}

    # ---- programs

    def start(self) -> None:
        """Starts the process of linear programs, so that it is ready when it is needed."""
        self._child.start()

    def program(self) -> LinearProgram:
        """A linear program without rows and columns, kept by the child."""
        return LinearProgram(self._child)

    # ---- several solvers, and their ends

    def beside(self, number: int) -> "LinearSolver":
        """The same solver with a process and files of its own, so that both can run at the same
        time; the number is above 0. Each number has one."""
        if number not in self._beside:
            folder = self.folder / str(number)
            folder.mkdir(exist_ok=True)
            self._beside[number] = LinearSolver(self._processes, folder, self.warn)
        return self._beside[number]

    def end_all(self) -> None:
        """Ends what runs now, also in the solvers beside this one."""
        self._processes.end_running()

    def open(self, words: Sequence[str]) -> "subprocess.Popen[bytes]":
        """Starts a process in its folder, which `end_all` ends, too."""
        return self._processes.open(words, self.folder)

    def shut(self, process: "subprocess.Popen[bytes]") -> None:
        """Ends a process of `open`."""
        self._processes.close(process)

    def close(self) -> None:
        """Ends the children."""
        for solver in (self, *self._beside.values()):
            solver._child.end()
