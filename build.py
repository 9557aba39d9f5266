#!/usr/bin/env python3
"""Proves the crates below some programs, each as soon as those that it uses are proved, and leaves
the programs in the folder `out`.

usage: build.py [PROGRAM=CRATE | CRATE] ..

  PROGRAM=CRATE  the program of this crate becomes out/PROGRAM
  CRATE          this library is proved, and kept below crates/CRATE/out

The order comes from crates.txt. Of the crates that can be proved, the one with the longest chain of
crates above it comes first; a crate counts by the bytes of its code. Each has a job for half of the
processors, and one that is alone for all: the functions of a crate wait for one another, so more
jobs are worth less and less. For the same reason crates start until there are a quarter more jobs
than processors; a longer chain has the higher priority.

`rt` works on one crate at a time and locks those that it uses, so each crate is proved in a folder
of its own, to which the libraries below it are linked. Its proofs then go back to its folder. A
crate whose sources, libraries and kit are as they were is not tried again. After a failure, or
Ctrl-C, what was proved is kept.
"""

import fcntl
import graphlib
import hashlib
import json
import os
import shutil
import signal
import subprocess
import sys
import time
from concurrent.futures import ThreadPoolExecutor
from pathlib import Path
from typing import Dict, Iterable, Iterator, List, NamedTuple, Set

ROOT = Path(__file__).resolve().parent
OUT = ROOT / "out"
ROOMS = OUT / "rooms"
# How many seconds the proof of each crate took the last time.
SECONDS = OUT / "proof-seconds.json"
PAUSE = 0.1
# The niceness of the lowest priority.
LEAST_PRIORITY = 19
NO_KIT = (
    "there is no command rt: the kit of Rattle has it, which docs/build.md names. Once"
    " it is unpacked, add its folder bin to PATH."
)


class Failed(Exception):
    """Why the programs are not built."""


class Crate(NamedTuple):
    """A crate, its line of crates.txt, and the crates of this repository that it uses, the indirect
    ones too."""

    name: str
    line: str
    below: Set[str]

    @property
    def home(self) -> Path:
        """Its folder."""
        return ROOT / "crates" / self.name

    @property
    def is_program(self) -> bool:
        """Whether it is a program, not a library."""
        return (self.home / "src" / "main.rt").exists()

    @property
    def made(self) -> Path:
        """The file that `rt` writes last: the program, or the mark of the library."""
        return self.home / "out" / (self.name if self.is_program else "rlib/stamp")

    def code_size(self) -> int:
        """The bytes of its code: most of the time goes into proofs of its functions."""
        return sum(path.stat().st_size for path in (self.home / "src").rglob("*.rt"))

    def sources(self) -> Iterator[Path]:
        """The files that `rt` reads."""
        for part in ("src", "specs", "proofs"):
            yield from (path for path in sorted((self.home / part).rglob("*")) if path.is_file())


# ---- the crates


def crates_below(names: Iterable[str]) -> Dict[str, Crate]:
    """The crates of these names and those that they use, each after those that it uses."""
    lines = {}
    for line in (ROOT / "crates.txt").read_text().splitlines():
        head, _, used = line.partition("#")[0].partition(":")
        if head.strip():
            lines[head.split()[0]] = (line, used.split())
    graph = {name: {one for one in used if one in lines} for name, (_, used) in lines.items()}
    crates: Dict[str, Crate] = {}
    for name in graphlib.TopologicalSorter(graph).static_order():
        crates[name] = Crate(
            name,
            lines[name][0],
            set(graph[name]).union(*(crates[one].below for one in graph[name])),
        )
    for name in names:
        if name not in crates:
            raise Failed(f"crates.txt has no crate {name}")
    wanted = set(names).union(*(crates[name].below for name in names))
    return {name: crate for name, crate in crates.items() if name in wanted}


def chains(crates: Dict[str, Crate]) -> Dict[str, int]:
    """For each crate the bytes of the longest chain from it up to a program."""
    lengths: Dict[str, int] = {}
    for name, crate in reversed(list(crates.items())):
        above = [lengths[other] for other, one in crates.items() if name in one.below]
        lengths[name] = crate.code_size() + max(above, default=0)
    return lengths


def kit() -> str:
    """What `rt version` prints."""
    try:
        return subprocess.run(
            ["rt", "version"], stdout=subprocess.PIPE, text=True, check=True
        ).stdout
    except FileNotFoundError:
        raise Failed(NO_KIT) from None


def sums_of_sources(crates: Dict[str, Crate]) -> Dict[str, str]:
    """For each crate a checksum of all that its proofs depend on."""
    version = kit().encode()
    sums: Dict[str, str] = {}
    for name, crate in crates.items():
        whole = hashlib.sha256(version + (ROOT / "HANDLES").read_bytes() + crate.line.encode())
        for path in crate.sources():
            whole.update(repr((str(path.relative_to(crate.home)), path.read_bytes())).encode())
        for other in sorted(crate.below):
            whole.update(sums[other].encode())
        sums[name] = whole.hexdigest()
    return sums


# ---- marks of proved crates


def mark(crate: Crate, sources: str) -> str:
    """The text of the crate's mark: the checksums of its sources, and of what was made from
    them."""
    return f"{sources} {hashlib.sha256(crate.made.read_bytes()).hexdigest()}\n"


def is_proved(crate: Crate, sources: str) -> bool:
    """Whether the crate was proved as it is, and nothing else was made in its folder since."""
    try:
        return (crate.home / "out" / "proved").read_text() == mark(crate, sources)
    except FileNotFoundError:
        return False


def seconds_of_proofs() -> Dict[str, int]:
    """The seconds by the clock of the last proof of each crate that was proved here."""
    return dict(json.loads(SECONDS.read_text())) if SECONDS.exists() else {}


def keep_seconds(name: str, seconds: int) -> None:
    """Keeps how long the proof of a crate took."""
    SECONDS.write_text(json.dumps({**seconds_of_proofs(), name: seconds}))


# ---- the room of a crate


def link(source: Path, target: Path, *without: str) -> None:
    """Gives the files of a folder a second name; `rt` replaces such files, and changes none."""
    if source.exists():
        shutil.copytree(
            source,
            target,
            copy_function=os.link,
            ignore=shutil.ignore_patterns(*without),
            dirs_exist_ok=True,
        )


def furnish(room: Path, crate: Crate, crates: Dict[str, Crate]) -> Path:
    """Makes this folder a repository of the crate and of those below it, with their libraries.
    Returns the crate's folder there."""
    folder = room / "crates" / crate.name
    for name in sorted(crate.below):
        link(crates[name].home, room / "crates" / name, "out", "must-fail")
        link(crates[name].home / "out" / "rlib", room / "crates" / name / "out" / "rlib")
    link(crate.home, folder, "out", "must-fail")
    (room / "crates.txt").write_text(
        "".join(
            f"{one.line}\n" for one in crates.values() if one == crate or one.name in crate.below
        )
    )
    shutil.copy(ROOT / "HANDLES", room)
    return folder


def make_room(crate: Crate, crates: Dict[str, Crate]) -> Path:
    """A folder in which the crate is proved, with what was kept of its proofs. Returns the crate's
    folder there."""
    folder = furnish(ROOMS / crate.name, crate, crates)
    # A program runs once, on the data of its test.
    link(crate.home / "data", folder)
    if (crate.home / "out").exists():
        (crate.home / "out").rename(folder / "out")
    return folder


def leave_room(name: str) -> Path:
    """Moves the crate's proofs home. Returns the room, to be removed: it has thousands of links,
    which takes seconds."""
    made = ROOMS / name / "crates" / name / "out"
    home = ROOT / "crates" / name / "out"
    if made.exists() and not home.exists():
        made.rename(home)
    return ROOMS / name


def leave_rooms() -> None:
    """Leaves and removes all rooms, also those of a build that was killed."""
    for room in ROOMS.iterdir() if ROOMS.exists() else ():
        leave_room(room.name)
    shutil.rmtree(ROOMS, ignore_errors=True)


# ---- the build


class Task:
    """A crate that is being proved with this number of jobs, at this niceness."""

    def __init__(self, crate: Crate, crates: Dict[str, Crate], jobs: int, niceness: int) -> None:
        self.crate = crate
        self.jobs = jobs
        self.began = time.monotonic()
        folder = make_room(crate, crates)
        words = [
            "nice",
            "-n",
            str(niceness),
            "rt",
            "run" if crate.is_program else "lib",
            "--jobs",
            str(jobs),
        ]
        if (crate.home / "args").exists():
            words += ["--", *(crate.home / "args").read_text().splitlines()]
        self.log = folder.parents[1] / "log"
        with self.log.open("wb") as log:
            self.process = subprocess.Popen(
                words, cwd=folder, stdin=subprocess.DEVNULL, stdout=log, stderr=subprocess.STDOUT
            )


class Build:
    """The crates, in the order of their chains, and those that are being proved."""

    def __init__(self, crates: Dict[str, Crate], processors: int) -> None:
        self.crates = crates
        self.processors = processors
        self.began = time.monotonic()
        self.sums = sums_of_sources(crates)
        lengths = chains(crates)
        self.order = sorted(crates, key=lambda name: -lengths[name])
        self.proved = 0
        self.tasks: List[Task] = []
        # Rooms are removed while the next crates are proved.
        self.remover = ThreadPoolExecutor(1)

    def run(self) -> None:
        """Proves all crates."""
        graph = graphlib.TopologicalSorter(
            {name: crate.below for name, crate in self.crates.items()}
        )
        graph.prepare()
        ready = self.unproved(graph)
        what = f"{self.processors} processor{'s' * (self.processors > 1)}"
        while ready or self.tasks:
            self.start(ready)
            self.tell(what)
            task = self.ended()
            self.finish(task)
            graph.done(task.crate.name)
            ready += self.unproved(graph)
            seconds = round(time.monotonic() - task.began)
            keep_seconds(task.crate.name, seconds)
            what = f"{task.crate.name} is proved, in {seconds} s"
        self.tell("all crates are proved")

    def unproved(self, graph: "graphlib.TopologicalSorter[str]") -> List[str]:
        """The crates that can be proved now. Those that are proved as they are count as done."""
        found: List[str] = []
        new = graph.get_ready()
        while new:
            proved = [name for name in new if is_proved(self.crates[name], self.sums[name])]
            found += [name for name in new if name not in proved]
            graph.done(*proved)
            self.proved += len(proved)
            new = graph.get_ready()
        return found

    def start(self, ready: List[str]) -> None:
        """Starts crates, the longest chain first, until there are a quarter more jobs than
        processors."""
        ready.sort(key=self.order.index)
        jobs = (
            self.processors if len(ready) == 1 and not self.tasks else max(1, self.processors // 2)
        )
        while (
            ready and sum(task.jobs for task in self.tasks) < self.processors + self.processors // 4
        ):
            name = ready.pop(0)
            self.tasks.append(
                Task(
                    self.crates[name],
                    self.crates,
                    jobs,
                    min(self.order.index(name), LEAST_PRIORITY),
                )
            )

    def ended(self) -> Task:
        """Waits until a crate is done, and takes it from the tasks."""
        while True:
            for task in self.tasks:
                if task.process.poll() is not None:
                    self.tasks.remove(task)
                    return task
            time.sleep(PAUSE)

    def finish(self, task: Task) -> None:
        """Takes the proofs of a crate back; a failure shows its log."""
        crate = task.crate
        if task.process.returncode != 0:
            sys.stderr.write(task.log.read_text(errors="replace"))
            raise Failed(
                f"{crate.name} is not proved: what rt said is above (its status is"
                f" {task.process.returncode})"
            )
        self.remover.submit(shutil.rmtree, leave_room(crate.name), True)
        if not crate.made.exists():
            raise Failed(
                f"rt made no {'program' if crate.is_program else 'library'} of {crate.name}"
            )
        (crate.home / "out" / "proved").write_text(mark(crate, self.sums[crate.name]))
        self.proved += 1

    def tell(self, what: str) -> None:
        """Prints what was done, and what is being proved."""
        minutes, seconds = divmod(round(time.monotonic() - self.began), 60)
        names = ", ".join(sorted(task.crate.name for task in self.tasks))
        doing = f"; proving {names}" if names else ""
        print(
            (
                f"{minutes:3}:{seconds:02}  {self.proved:2} of {len(self.crates)} crates:"
                f" {what}{doing}"
            ),
            flush=True,
        )

    def stop(self) -> None:
        """Ends what runs; `rt` ends its own commands. Waits until the rooms that were left are
        removed."""
        for task in self.tasks:
            task.process.terminate()
        for task in self.tasks:
            task.process.wait()
        self.remover.shutdown()


def install(programs: Dict[str, str], crates: Dict[str, Crate]) -> None:
    """Copies the programs to `out`."""
    for program, name in programs.items():
        new = OUT / f"{program}.new"
        shutil.copy(crates[name].made, new)
        new.replace(OUT / program)


def build(programs: Dict[str, str], libraries: List[str]) -> None:
    """Builds the programs, each given with the name of its crate, and the libraries."""
    crates = crates_below([*programs.values(), *libraries])
    for name in programs.values():
        if not crates[name].is_program:
            raise Failed(f"the crate {name} is no program")
    OUT.mkdir(exist_ok=True)
    lock = os.open(OUT, os.O_RDONLY)
    try:
        fcntl.flock(lock, fcntl.LOCK_EX | fcntl.LOCK_NB)
    except BlockingIOError:
        raise Failed("another build is at work in this clone") from None
    leave_rooms()
    whole = Build(crates, len(os.sched_getaffinity(0)))
    try:
        whole.run()
        install(programs, crates)
    finally:
        for one in (signal.SIGINT, signal.SIGTERM, signal.SIGHUP):
            signal.signal(one, signal.SIG_IGN)
        whole.stop()
        leave_rooms()


def main(words: List[str]) -> int:
    """Reads the command line; the exit status."""
    programs = dict(word.split("=", 1) for word in words if "=" in word)
    libraries = [word for word in words if "=" not in word]
    if not words or any(word.startswith("-") for word in words):
        print(__doc__, file=sys.stderr)
        return 2
    for one in (signal.SIGTERM, signal.SIGHUP):
        signal.signal(one, signal.default_int_handler)
    try:
        build(programs, libraries)
    except KeyboardInterrupt:
        print("build.py: stopped; what was proved is kept", file=sys.stderr)
        return 130
    except Failed as fault:
        print(f"build.py: {fault}", file=sys.stderr)
        return 1
    if programs:
        print(f"built: {' '.join(f'out/{program}' for program in programs)}")
    return 0


if __name__ == "__main__":
    sys.exit(main(sys.argv[1:]))
