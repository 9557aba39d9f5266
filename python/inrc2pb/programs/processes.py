"""Child processes that run for a limited time. Each is a group of its own, and is ended as a
group."""

import contextlib
import functools
import os
import selectors
import shutil
import signal
import subprocess
import threading
import time
from dataclasses import dataclass
from pathlib import Path
from typing import Callable, NamedTuple, Sequence

from .interrupts import held

# Seconds that a process has to print its answer after it was asked to end.
GRACE = 2.0
MAX_OUTPUT = 1 << 28
# The last bytes of standard error that are kept.
LAST_BYTES = 200
# The bytes that are read at once.
PIECE = 1 << 16
# Seconds that a process has to end after its output did, and between two looks whether it has.
EXIT_SECONDS = 0.5
EXIT_PAUSE = 0.005
# The seconds of one wait for output. One more wait gets the last output of a process that has
# ended.
PAUSE = 0.1
# The most seconds of one wait: the system limits them.
MAX_WAIT = 3600.0
# The statuses with which `setpriv` reports that a command does not run.
NOT_RUN = (126, 127)


@dataclass(frozen=True)
class Ended:
    """How a process ended: its exit status, its output, whether it was ended before it ended
    itself, the end of its standard error, and whether it was ended because it printed more than
    MAX_OUTPUT, of which nothing is kept."""

    status: int
    data: bytes
    timed_out: bool
    errors: str = ""
    flooded: bool = False

    @property
    def output(self) -> str:
        """The output as a text. A long one with many bytes that are no UTF-8 takes many seconds."""
        return self.data.decode("utf-8", errors="replace")

    @property
    def last_error(self) -> str:
        """The last line of standard error, if it has one."""
        lines = self.errors.strip().splitlines()
        return "".join(char for char in lines[-1] if char.isprintable()) if lines else ""


def processors() -> int:
    """The number of processors that this process may use."""
    if hasattr(os, "sched_getaffinity"):
        return len(os.sched_getaffinity(0))
    return os.cpu_count() or 1


class Processes:
    """The child processes of a search. After `stop` none is left, and none starts."""

    def __init__(self) -> None:
        self._lock = threading.Lock()
        # Each with the signal that asks it to end.
        self._running: dict["subprocess.Popen[bytes]", int] = {}
        self._stopped = False

    def run(
        self,
        words: Sequence[str],
        seconds: float,
        folder: Path,
        ending: int = signal.SIGTERM,
        hear: Callable[[bytes], None] | None = None,
    ) -> Ended:
        """Runs a command for at most these seconds. `hear` gets its output while it comes. It is
        killed if this process is."""
        # `setpriv` would give a file of an unknown kind to a shell.
        prefix = _ending_with_this() if _is_executable(words[0]) else ()
        ended = self._run([*prefix, *words], seconds, folder, ending, hear)
        if ended.status in NOT_RUN and ended.errors.startswith("setpriv: "):
            # Without `setpriv` the command's own OSError is raised.
            return self._run(words, seconds, folder, ending, hear)
        return ended

    def _run(
        self,
        words: Sequence[str],
        seconds: float,
        folder: Path,
        ending: int,
        hear: Callable[[bytes], None] | None,
    ) -> Ended:
        with self._lock:
            if self._stopped:
                return Ended(-signal.SIGKILL, b"", True)
            process = subprocess.Popen(
                list(words),
                cwd=str(folder),
                stdin=subprocess.DEVNULL,
                stdout=subprocess.PIPE,
                stderr=subprocess.PIPE,
                start_new_session=True,
            )
            self._running[process] = ending
        try:
            printed = _output_of(process, seconds, ending, hear)
        finally:
            with self._lock:
                self._running.pop(process)
            for stream in (process.stdout, process.stderr):
                if stream:
                    stream.close()
            _wait_without_reaping(process, EXIT_SECONDS)
            _signal_group(process, signal.SIGKILL)
            status = process.wait()
        return Ended(
            status,
            printed.output,
            printed.timed_out,
            printed.errors.decode("utf-8", errors="replace"),
            printed.flooded,
        )

    def open(self, words: Sequence[str], folder: Path) -> "subprocess.Popen[bytes]":
        """Starts a process that answers on its standard output until `close`. It is ended with the
        others. Its words see to it that it ends when this process does."""
        with self._lock:
            process = subprocess.Popen(
                list(words),
                cwd=str(folder),
                stdin=subprocess.PIPE,
                stdout=subprocess.PIPE,
                stderr=subprocess.DEVNULL,
                start_new_session=True,
            )
            self._running[process] = signal.SIGKILL
            if self._stopped:
                _signal_group(process, signal.SIGKILL)
        return process

    def close(self, process: "subprocess.Popen[bytes]") -> None:
        """Ends a process of `open`."""
        with self._lock:
            self._running.pop(process, None)
        _signal_group(process, signal.SIGKILL)
        for stream in (process.stdin, process.stdout):
            if stream:
                with contextlib.suppress(OSError):
                    stream.close()
        process.wait()

    @property
    def stopped(self) -> bool:
        """Whether no process starts any more."""
        return self._stopped

    def ask_to_end(self) -> None:
        """Lets all processes print their answers as if their time was over, and starts none any
        more."""
        with self._lock:
            self._stopped = True
            for process, ending in self._running.items():
                _signal_group(process, ending)
        after_grace = threading.Timer(GRACE, self.stop)
        after_grace.daemon = True
        after_grace.start()

    def stop(self) -> None:
        """Ends all processes, permanently."""
        with self._lock:
            self._stopped = True
        self.end_running()

    def end_running(self) -> None:
        """Ends the processes that run now. Others may start."""
        with self._lock:
            for process in self._running:
                _signal_group(process, signal.SIGKILL)


def run_to_end(
    words: Sequence[str], given: bytes, seconds: float | None
) -> "subprocess.CompletedProcess[bytes]":
    """Runs a command on this standard input, in a session of its own, so that Ctrl-C ends this
    process and not a command that it has begun. When this function ends, none of its processes
    runs, also if a signal came while they began. Raises TimeoutExpired after these seconds."""
    process: "subprocess.Popen[bytes] | None" = None
    try:
        with held():
            process = subprocess.Popen(
                list(words),
                stdin=subprocess.PIPE,
                stdout=subprocess.PIPE,
                stderr=subprocess.PIPE,
                start_new_session=True,
            )
        output, errors = process.communicate(given, seconds)
        return subprocess.CompletedProcess(words, process.returncode, output, errors)
    finally:
        if process and process.returncode is None:
            with held(), process:
                _signal_group(process, signal.SIGKILL)


def _is_executable(command: str) -> bool:
    """Whether the command is a program of Linux, or a script that names its interpreter."""
    try:
        with open(shutil.which(command) or command, "rb") as file:
            return file.read(4).startswith((b"#!", b"\x7fELF"))
    except OSError:
        return False


@functools.lru_cache(maxsize=None)
def _ending_with_this() -> tuple[str, ...]:
    """The words before a command that is to be killed when this process is; none if the system has
    no such `setpriv`."""
    words = ("setpriv", "--pdeathsig", "KILL")
    try:
        subprocess.run(
            [*words, "true"],
            stdin=subprocess.DEVNULL,
            stdout=subprocess.DEVNULL,
            stderr=subprocess.DEVNULL,
            check=True,
            timeout=MAX_WAIT,
        )
    except (OSError, subprocess.SubprocessError):
        return ()
    return words


def _wait_without_reaping(process: "subprocess.Popen[bytes]", seconds: float) -> None:
    """Waits until the process has ended, for at most these seconds. Its number stays its own, so
    its group can be ended."""
    limit = time.monotonic() + seconds
    while not _has_ended(process) and time.monotonic() < limit:
        time.sleep(EXIT_PAUSE)


def _has_ended(process: "subprocess.Popen[bytes]") -> bool:
    return os.waitid(os.P_PID, process.pid, os.WEXITED | os.WNOHANG | os.WNOWAIT) is not None


def _signal_group(process: "subprocess.Popen[bytes]", number: int) -> None:
    if process.returncode is not None:
        # Another process may have its number now.
        return
    try:
        os.killpg(process.pid, number)
    except (ProcessLookupError, PermissionError):
        pass


class _Output(NamedTuple):
    """The output of a process, and the other parts of `Ended` that come with it."""

    output: bytes
    errors: bytes
    timed_out: bool
    flooded: bool = False


def _output_of(
    process: "subprocess.Popen[bytes]",
    seconds: float,
    ending: int,
    hear: Callable[[bytes], None] | None,
) -> _Output:
    """The output until its end, with the last bytes of standard error; at the limit the process is
    asked to end, and after the grace it is killed. A child that the process has left behind, and
    that keeps its output open, is not waited for.
    """
    assert process.stdout is not None and process.stderr is not None
    parts: list[bytes] = []
    size = 0
    errors = b""
    timed_out = False
    limit = time.monotonic() + seconds
    with selectors.DefaultSelector() as streams:
        streams.register(process.stdout, selectors.EVENT_READ)
        streams.register(process.stderr, selectors.EVENT_READ)
        while True:
            is_over = _has_ended(process)
            ready = [
                key.fileobj
                for key, _ in streams.select(min(PAUSE, max(0.0, limit - time.monotonic())))
            ]
            if is_over and not ready:
                return _Output(b"".join(parts), errors, timed_out)
            if process.stderr in ready:
                data = os.read(process.stderr.fileno(), PIECE)
                errors = (errors + data)[-LAST_BYTES:]
                if not data:
                    streams.unregister(process.stderr)
            if process.stdout in ready:
                data = os.read(process.stdout.fileno(), PIECE)
                if not data:
                    return _Output(b"".join(parts), errors, timed_out)
                size += len(data)
                parts.append(data)
                if hear:
                    hear(data)
            if size > MAX_OUTPUT:
                _signal_group(process, signal.SIGKILL)
                return _Output(b"", errors, True, True)
            if time.monotonic() >= limit:
                if timed_out:
                    _signal_group(process, signal.SIGKILL)
                    return _Output(b"".join(parts), errors, True)
                timed_out = True
                limit = time.monotonic() + GRACE
                _signal_group(process, ending)
