#!/usr/bin/env python3
"""Runs the gate and prints the time of its parts: proofs, tests and edits of each crate, and the
scripts. The proofs with which the edits of a crate begin are counted with these.

usage: gate.py [--anew] [--processors LIST] [COMMAND..]

  --anew             prove everything from nothing: take no result of an earlier run on this
                     machine (some kits keep none)
  --processors LIST  run on these processors only, for example 0,1
  COMMAND            measure this command in place of .ci/run, for example
                     `tests/edits/main.py --anew opb_text`

The processor time is sampled: twice a second, each process that the gate started is assigned to the
part that its command line names. Processes that ended between two samples are in the row
`short processes`. The wall time of a part is the time from its first process to its last one; parts
overlap. A virtual machine may change its speed: a fixed loop, run every ten seconds, tells how much
of its best speed the machine had on average, and the last line what the gate would have taken at
the best. To compare two commits, measure both at the same time, in a clone of each and on
processors of their own. Needs Linux.
"""

import argparse
import os
import re
import resource
import subprocess
import sys
import time
from collections import defaultdict
from pathlib import Path
from typing import Dict, List, NamedTuple, Tuple

TICKS = os.sysconf("SC_CLK_TCK")
PERIOD = 0.5
LOOP_PERIOD = 10.0


class Process(NamedTuple):
    """A running process: its parent, its own processor time in seconds, and the time of its
    start."""

    parent: int
    seconds: float
    start: str


class Part:
    """The processor time of one part of the gate so far."""

    def __init__(self) -> None:
        self.seconds: Dict[Tuple[int, str], float] = {}
        self.first = self.last = 0.0

    def add(self, pid: int, process: Process, now: float) -> None:
        self.first = self.first or now
        self.last = now
        self.seconds[pid, process.start] = process.seconds

    def total(self) -> float:
        return sum(self.seconds.values())


def processes() -> Dict[int, Process]:
    """Every process of the machine."""
    found = {}
    for entry in os.listdir("/proc"):
        if entry.isdigit():
            try:
                fields = (
                    Path(f"/proc/{entry}/stat")
                    .read_text(errors="replace")
                    .rpartition(")")[2]
                    .split()
                )
            except OSError:
                continue
            found[int(entry)] = Process(
                int(fields[1]), (int(fields[11]) + int(fields[12])) / TICKS, fields[19]
            )
    return found


def own_part(pid: int) -> str:
    """The part that the command line of a process names, or nothing."""
    try:
        words = Path(f"/proc/{pid}/cmdline").read_bytes().decode(errors="replace").split("\0")
        folder = os.readlink(f"/proc/{pid}/cwd")
    except OSError:
        return ""
    script = next((word for word in words[:3] if re.search(r"(^|/)tests/\w+/\w+\.sh$", word)), "")
    if script:
        return f"script {os.path.basename(script)}"
    if "--crate-name" not in words:
        return ""
    crate = words[words.index("--crate-name") + 1]
    if re.search(r"/rt-edit-|/out/(edits/)?rooms/", folder):
        return f"edits {crate}"
    return f"tests {crate}" if "--test" in words else f"proof {crate}"


def part_of(
    pid: int, table: Dict[int, Process], root: int, known: Dict[Tuple[int, str], str]
) -> str:
    """The part of the nearest ancestor that names one; `other` below the root, nothing outside."""
    path = []
    while pid in table and pid != root:
        path.append(pid)
        pid = table[pid].parent
    if pid != root:
        return ""
    for one in path:
        key = one, table[one].start
        if not known.get(key):
            known[key] = own_part(one)
        if known[key]:
            return known[key]
    return "other"


def loop_seconds() -> float:
    """The processor time of a fixed loop."""
    began = time.process_time()
    total = 0
    for number in range(500_000):
        total += number
    return time.process_time() - began


def measure(command: List[str]) -> Tuple[int, float, Dict[str, Part], List[float]]:
    """Runs the command: its status, its wall time, its parts, and the times of the loops."""
    parts: Dict[str, Part] = defaultdict(Part)
    known: Dict[Tuple[int, str], str] = {}
    loops: List[float] = []
    began = time.monotonic()
    with subprocess.Popen(command) as running:
        while running.poll() is None:
            table = processes()
            now = time.monotonic()
            for pid, process in table.items():
                part = part_of(pid, table, running.pid, known)
                if part:
                    parts[part].add(pid, process, now)
            if now - began >= LOOP_PERIOD * len(loops):
                loops.append(loop_seconds())
            time.sleep(PERIOD)
    return running.returncode, time.monotonic() - began, parts, loops


def from_nothing() -> List[str]:
    """The word with which `rt ci` takes no result of an earlier run; none if this kit keeps no
    results."""
    guide = subprocess.run(
        ["rt", "help"], stdout=subprocess.PIPE, stderr=subprocess.STDOUT, universal_newlines=True
    )
    return ["--anew"] if "--anew" in guide.stdout else []


def row(name: str, wall: float, seconds: float) -> None:
    """Prints one row of the table."""
    print(f"{name:32} {wall:8.0f} {seconds:12.0f}")


def report(wall: float, parts: Dict[str, Part], loops: List[float]) -> None:
    """Prints the parts, the sums of each kind, the whole, and the speed of the machine."""
    used = resource.getrusage(resource.RUSAGE_CHILDREN)
    whole = used.ru_utime + used.ru_stime
    print(f"\n{'part':32} {'wall s':>8} {'processor s':>12}")
    kinds: Dict[str, float] = defaultdict(float)
    for name in sorted(parts):
        kind = name.partition(" ")[0]
        part = parts[name]
        kinds[kind] += part.total()
        row(name, part.last - part.first, part.total())
    row("short processes", wall, max(0.0, whole - sum(kinds.values())))
    for kind in sorted(kinds):
        row(f"all: {kind}", wall, kinds[kind])
    row("all", wall, whole)
    best = min(loops)
    speed = sum(best / seconds for seconds in loops) / len(loops)
    print(
        f"\nspeed: {speed:.2f} of the best (a loop of {best:.3f} s), at which the gate would take"
        f" {wall * speed:.0f} s"
    )


def main() -> None:
    """Reads the command line."""
    parser = argparse.ArgumentParser(description="Runs the gate and prints the time of its parts.")
    parser.add_argument("--anew", action="store_true", help="prove everything from nothing")
    parser.add_argument(
        "--processors", metavar="LIST", help="run on these processors only, for example 0,1"
    )
    parser.add_argument(
        "command", nargs=argparse.REMAINDER, help="measure this command in place of .ci/run"
    )
    words = parser.parse_args()
    os.chdir(Path(__file__).resolve().parents[2])
    if words.processors:
        os.sched_setaffinity(0, {int(number) for number in words.processors.split(",")})
    command = [word for word in words.command if word != "--"] or [".ci/run"]
    status, wall, parts, loops = measure([*command, *(from_nothing() if words.anew else [])])
    report(wall, parts, loops)
    sys.exit(status)


if __name__ == "__main__":
    main()
