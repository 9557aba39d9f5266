"""The common part of the commands: their output, the end of a command after a fault or a signal,
and the entry points."""

import contextlib
import errno
import importlib
import io
import os
import signal
import sys
from typing import Callable, Iterator, TextIO, cast

from ..programs.interrupts import Interrupted
from ..programs.own_folder import own_folder
from ..programs.program import FAULT, OUT_OF_MEMORY, READ_OR_WRITE
from ..week.faults import FileFault, FileFaults, Misuse, ProgramFault, fault_line, not_obeyed

# The exit status with which a shell reports that a signal ended a command is its number more than
# the base.
SIGNAL_BASE = 128
BROKEN_PIPE = SIGNAL_BASE + signal.SIGPIPE
# The most faults of a file that are reported together.
MAX_FAULTS = 20
MODULES = {"inrc2pb-plan": "plan", "inrc2pb-roster": "roster", "inrc2pb-solve": "solve"}


class _Output(io.TextIOWrapper):
    """Standard output. On a terminal it shows the codes of signs that a terminal would obey, such
    as one that changes its colors."""

    def write(self, text: str) -> int:
        """Writes the text."""
        return self.write_painted(not_obeyed(text) if self.isatty() else text)

    def write_painted(self, text: str) -> int:
        """Writes a text with colors of our own, in which names have been made harmless."""
        return super().write(text)


def print_painted(text: str) -> None:
    """Prints a text with colors of our own, in which names have been made harmless."""
    if isinstance(sys.stdout, _Output):
        sys.stdout.write_painted(text)
    else:
        sys.stdout.write(text)


class _Remarks(_Output):
    """Standard error in UTF-8. A remark that cannot be written, as to a full disk, is lost, and the
    command goes on."""

    def write(self, text: str) -> int:
        """Writes the text if that is possible."""
        with contextlib.suppress(OSError):
            super().write(text)
        return len(text)

    def flush(self) -> None:
        """Writes what is left if that is possible."""
        with contextlib.suppress(OSError):
            super().flush()


class _Closed(io.TextIOBase):
    """A standard output that was closed, as by `>&-`: each write is a fault, and so is the next
    flush, if nobody has heard of the write."""

    def __init__(self) -> None:
        super().__init__()
        self._is_lost = False

    def write(self, text: str) -> int:
        """Raises the fault."""
        self._is_lost = True
        raise OSError(errno.EBADF, "it is closed", "standard output")

    def flush(self) -> None:
        """Raises the fault of a write."""
        is_lost = self._is_lost
        self._is_lost = False
        if is_lost:
            raise OSError(errno.EBADF, "it is closed", "standard output")


def _standard_output(stream: TextIO | None) -> TextIO:
    """The stream, which writes UTF-8 from now on."""
    if stream is None:
        # No other file gets the descriptor.
        while os.open(os.devnull, os.O_RDONLY) < 1:
            pass
        return cast(TextIO, _Closed())
    try:
        descriptor = stream.fileno()
    except OSError:
        if isinstance(stream, io.TextIOWrapper):
            stream.reconfigure(encoding="utf-8", errors="surrogateescape")
        return stream
    return _Output(
        open(descriptor, "wb", closefd=False),
        encoding="utf-8",
        errors="surrogateescape",
        line_buffering=stream.isatty(),
    )


def _standard_error(stream: TextIO | None) -> TextIO:
    """The stream, of which no write fails from now on. One of a script, without a descriptor, stays
    as it is."""
    stream = stream or open(os.devnull, "w")
    try:
        unbuffered = open(stream.fileno(), "wb", buffering=0, closefd=False)
    except OSError:
        return stream
    return _Remarks(
        io.BufferedWriter(unbuffered),
        encoding="utf-8",
        errors="backslashreplace",
        line_buffering=True,
    )


def run(main: Callable[[], int | None]) -> None:
    """Runs a command and exits: each fault is one line on standard error, with status 1 or the
    program's own."""
    name = os.path.basename(sys.argv[0])
    sys.stdout = _standard_output(sys.stdout)
    sys.stderr = _standard_error(sys.stderr)
    try:
        _catch_signals()
        with own_folder():
            status = _status_of(main)
            sys.stdout.flush()
            _ignore_signals()
    except BrokenPipeError:
        os.dup2(os.open(os.devnull, os.O_WRONLY), 1)
        status = BROKEN_PIPE
    except KeyboardInterrupt as ended:
        by = ended if isinstance(ended, Interrupted) else Interrupted(signal.SIGINT)
        if by.message:
            print(f"{name}: {by.message}", file=sys.stderr)
        status = SIGNAL_BASE + by.number
    except ProgramFault as fault:
        print(f"{name}: {fault_line(fault)}", file=sys.stderr)
        status = fault.status if 0 < fault.status < 256 else FAULT
    except (FileFault, Misuse, OSError) as fault:
        print(f"{name}: {fault_line(fault)}", file=sys.stderr)
        status = READ_OR_WRITE if isinstance(fault, OSError) else FAULT
        _drop_output()
    except FileFaults as several:
        for told in several.faults[:MAX_FAULTS]:
            print(f"{name}: {fault_line(told)}", file=sys.stderr)
        if len(several.faults) > MAX_FAULTS:
            print(
                f"{name}: and {len(several.faults) - MAX_FAULTS} more such faults", file=sys.stderr
            )
        status = FAULT
    except MemoryError:
        print(f"{name}: out of memory", file=sys.stderr)
        status = OUT_OF_MEMORY
    sys.exit(status)


def _status_of(main: Callable[[], int | None]) -> int:
    """Runs a command; its exit status. After `--help` its parser exits: what it has printed is not
    written yet."""
    try:
        return main() or 0
    except SystemExit as end:
        if end.code:
            raise
        return 0


def _catch_signals() -> None:
    """From now on Ctrl-C is a KeyboardInterrupt again: before, while a command starts, it ends the
    process without a word. TERM and HUP end the command too, and no temporary file is left. The
    statuses of children are kept, also if the caller ignores them.
    """
    if signal.getsignal(signal.SIGINT) == signal.SIG_DFL:
        signal.signal(signal.SIGINT, signal.default_int_handler)
    for number in (signal.SIGTERM, signal.SIGHUP):
        if signal.getsignal(number) == signal.SIG_DFL:
            signal.signal(number, _end)
    signal.signal(signal.SIGCHLD, signal.SIG_DFL)


def _ignore_signals() -> None:
    """All is done: a signal that comes while the own folder is removed, or while Python ends, does
    not change the status."""
    for number in (signal.SIGINT, signal.SIGTERM, signal.SIGHUP):
        signal.signal(number, signal.SIG_IGN)


def _end(number: int, _frame: object) -> None:
    raise Interrupted(number)


def _drop_output() -> None:
    """Output that cannot be written is not tried again when Python exits."""
    try:
        sys.stdout.flush()
    except OSError:
        os.dup2(os.open(os.devnull, os.O_WRONLY), 1)


# ---- the entry points: a copy of the launcher finds its command by its own name


def plan() -> None:
    """The command `inrc2pb-plan`."""
    run(lambda: _main("plan"))


def roster() -> None:
    """The command `inrc2pb-roster`."""
    run(lambda: _main("roster"))


def solve() -> None:
    """The command `inrc2pb-solve`."""
    run(lambda: _main("solve"))


def launch() -> None:
    """Runs the command as which this process was started, and exits."""
    run(_run_by_name)


def _run_by_name() -> int:
    """Runs the command as which this process was started, and returns its status."""
    module = next((MODULES[name] for name in _names(sys.argv[0]) if name in MODULES), None)
    if not module:
        raise Misuse(f"no command has this name: give it one of {', '.join(MODULES)}")
    return _main(module)


def _names(path: str) -> Iterator[str]:
    """The name of a file, and those of the files that it leads to as a link."""
    yield os.path.basename(path)
    while os.path.islink(path):
        path = os.path.join(os.path.dirname(path), os.readlink(path))
        yield os.path.basename(path)


def _main(module: str) -> int:
    try:
        command = importlib.import_module(f"{__package__}.{module}")
    except ImportError as fault:
        if (fault.name or "").partition(".")[0] != "numpy":
            raise
        raise Misuse(
            "this command needs NumPy: install it (Debian: apt-get install python3-numpy)"
        ) from None
    return command.main() or 0
