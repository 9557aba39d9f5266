"""The checks with edits in place, each of a copy of a crate, over libraries of the crates below it
that are built already.

Such libraries are below crates/*/out/rlib: those of build.py, or those that `rt ci` has just built.
`rt check` would build the latter anew, because they hold statements alone, so a check calls
`rattle` itself, with the words that `rt ci` gives it. What a check proves of the crate is kept for
the next one.
"""

import contextlib
import os
import shutil
import signal
import subprocess
import sys
from pathlib import Path
from typing import Dict, Iterable, List, NamedTuple, Set

sys.path.insert(0, str(Path(__file__).resolve().parents[2]))

import build  # noqa: E402
from edit import Edit, edited  # noqa: E402
from verdict import Verdict, verdict_of  # noqa: E402

ROOMS = build.OUT / "edits" / "rooms"


class Check(NamedTuple):
    """A check with edits in place: what it said, its last lines, whether a signal ended it, and its
    seconds of processor time."""

    verdict: Verdict
    tail: str
    is_killed: bool
    processor: float


def kit() -> Path:
    """The folder of the kit of Rattle, whose command `rt` is in PATH."""
    found = shutil.which("rt")
    if not found:
        raise build.Failed(build.NO_KIT)
    return Path(found).resolve().parents[1]


def library(name: str) -> Path:
    """The library that was built of this crate."""
    return build.ROOT / "crates" / name / "out" / "rlib" / f"{name}.rlib"


def check_words(
    crate: build.Crate,
    crates: Dict[str, build.Crate],
    functions: Iterable[str],
    jobs: int,
    kept: Path,
) -> List[str]:
    """The command that checks these functions of the crate, or all if none is named, in a folder
    with its sources, over what was kept."""
    folder = kit()
    used = crate.line.partition("#")[0].partition(":")[2].split()
    words = [
        f"{folder}/bin/rattle",
        "check",
        "--crate-name",
        crate.name,
        f"src/{'main' if crate.is_program else 'lib'}.rt",
    ]
    for name in ["std", *(name for name in used if name not in crates)]:
        words += ["--extern", f"{name}={folder}/rlibs/{name}.rlib"]
    words += ["-L", f"dependency={folder}/rlibs"]
    for name in (name for name in used if name in crates):
        words += ["--extern", f"{name}={library(name)}"]
    for name in sorted(crate.below):
        words += ["-L", f"dependency={library(name).parent}"]
    words += [
        "--antt-project",
        f"{folder}/rattle/logic/antt-project.json",
        "--logic-built",
        f"{folder}/logic_built",
    ]
    for name in functions:
        words += ["--only", name.partition("::")[2]]
    return [*words, "--jobs", str(jobs), "--incremental", str(kept)]


def link_checked(source: str, target: str) -> None:
    """Gives a file of kept work to a room: a check replaces a checked module, and writes into other
    files."""
    if source.endswith(".oantt"):
        os.link(source, target)
    else:
        shutil.copy2(source, target)


def kept_work(crate: build.Crate) -> Path:
    """The folder of what checks of the crate keep for the next one. It begins with what a check in
    the crate's own folder has kept, if there is one."""
    folder = ROOMS / crate.name / "kept"
    own = crate.home / "out" / "incremental"
    if not folder.exists():
        folder.mkdir(parents=True)
        if own.exists():
            shutil.copytree(own, folder, copy_function=link_checked, dirs_exist_ok=True)
    return folder


def copy_with(edits: Iterable[Edit], crate: build.Crate) -> Path:
    """A folder with the crate's sources, in which the edits are in place. Raises Unfit if they do
    not fit."""
    texts = edited(edits, crate.home)
    folder = ROOMS / crate.name / "tree"
    shutil.rmtree(folder, ignore_errors=True)
    folder.mkdir(parents=True)
    for part in ("src", "specs", "proofs"):
        if (crate.home / part).exists():
            shutil.copytree(crate.home / part, folder / part)
    for path, text in texts.items():
        (folder / path).write_text(text, encoding="utf-8")
    return folder


def check(
    crate: build.Crate,
    crates: Dict[str, build.Crate],
    edits: Iterable[Edit],
    functions: Iterable[str],
    jobs: int,
    running: Set[int],
) -> Check:
    """Checks these functions of the crate, or all if none is named, with these edits, by this
    number of jobs. Its process, which leads a group, is among those that are running as long as it
    is. Raises Unfit if the edits do not fit."""
    folder = copy_with(edits, crate)
    log = ROOMS / crate.name / "log"
    words = check_words(crate, crates, functions, jobs, kept_work(crate))
    with log.open("wb") as out:
        process = subprocess.Popen(
            words,
            cwd=folder,
            stdin=subprocess.DEVNULL,
            stdout=out,
            stderr=subprocess.STDOUT,
            start_new_session=True,
        )
    running.add(process.pid)
    _, status, used = os.wait4(process.pid, 0)
    running.discard(process.pid)
    process.returncode = os.waitstatus_to_exitcode(status)
    output = log.read_text(encoding="utf-8", errors="replace")
    return Check(
        verdict_of(output), output[-1500:], process.returncode < 0, used.ru_utime + used.ru_stime
    )


def stop(running: Set[int]) -> None:
    """Ends the checks that are running, and what they started."""
    for process in list(running):
        with contextlib.suppress(ProcessLookupError):
            os.killpg(process, signal.SIGTERM)
