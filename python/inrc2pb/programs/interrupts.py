"""Ctrl-C, TERM and HUP ask a command to end: it finishes what it has begun, and reports what it
has."""

import contextlib
import signal
import threading
from typing import Callable, Iterator

from ..week.faults import Stopped

SIGNALS = (signal.SIGINT, signal.SIGTERM, signal.SIGHUP)


class Interrupted(KeyboardInterrupt):
    """A signal of this number has ended the command; the message says what is missing, if something
    is."""

    def __init__(self, number: int, message: str = "") -> None:
        super().__init__(number, message)
        self.number = number
        self.message = message


class Interrupts:
    """The signals that came. Each one calls the action of the moment, if there is one, in a thread
    of its own."""

    def __init__(self) -> None:
        self.caught: list[int] = []
        self._action: Callable[[], None] | None = None

    @contextlib.contextmanager
    def calling(self, action: Callable[[], None]) -> Iterator[None]:
        """Within the block a signal calls the action; so does one that came before."""
        before = self._action
        self._action = action
        if self.caught:
            action()
        try:
            yield
        finally:
            self._action = before

    def check(self, message: str = "") -> None:
        """Raises Interrupted, with this message, if a signal came."""
        if self.caught:
            raise Interrupted(self.caught[0], message)

    @contextlib.contextmanager
    def ending(self) -> Iterator[None]:
        """Within the block a signal that stops a search before it has found a roster ends the
        command: Interrupted is raised in place of Stopped."""
        try:
            yield
        except Stopped as fault:
            self.check(fault.message)
            raise

    def ask(self) -> None:
        """Asks what runs now to end, as a signal does."""
        if self._action:
            threading.Thread(target=self._action, daemon=True).start()

    def take(self, number: int, _frame: object = None) -> None:
        """A signal has come. The action may need a lock that the interrupted thread holds, so it
        runs in another."""
        self.caught.append(number)
        self.ask()


_installed: list[Interrupts] = []


@contextlib.contextmanager
def interrupts() -> Iterator[Interrupts]:
    """Within the block signals are caught, except those that the caller ignores, as `nohup` does.
    Blocks may be nested."""
    if _installed or threading.current_thread() is not threading.main_thread():
        yield _installed[-1] if _installed else Interrupts()
        return
    taken = Interrupts()
    _installed.append(taken)
    before = {
        number: signal.signal(number, taken.take)
        for number in SIGNALS
        if signal.getsignal(number) != signal.SIG_IGN
    }
    try:
        yield taken
    finally:
        for number, handler in before.items():
            signal.signal(number, handler)
        _installed.remove(taken)


@contextlib.contextmanager
def held() -> Iterator[None]:
    """Within the block no signal ends the command: one that comes ends it after the block."""
    if _installed or threading.current_thread() is not threading.main_thread():
        yield
        return
    taken = Interrupts()
    handlers = {number: signal.getsignal(number) for number in SIGNALS}
    ending = {number: handler for number, handler in handlers.items() if callable(handler)}
    try:
        for number in ending:
            signal.signal(number, taken.take)
        yield
    finally:
        for number, handler in ending.items():
            signal.signal(number, handler)
        if taken.caught:
            signal.raise_signal(taken.caught[0])
