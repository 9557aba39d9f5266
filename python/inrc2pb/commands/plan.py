"""Plans a ward from one folder: its spreadsheet, and what verbs have made of it."""

import argparse
import datetime
import ipaddress
import re
import shlex
import socket
import sys
from pathlib import Path
from urllib.parse import urlsplit

from ..page.jobs import Jobs
from ..page.server import LOCAL, LocalServer
from ..plans.planned import Planned
from ..plans.planning import CHANGE_SECONDS, WEEK_SECONDS
from ..plans.store import Means
from ..plans.table import BY_NAME, VERBS, Verbs
from ..plans.verb import Event, Outcome
from ..plans.ward_folder import WardFolder
from ..programs.interrupts import Interrupted, interrupts
from ..programs.program import find_program
from ..programs.progress import WardProgress
from ..programs.secrets_file import kept_secret
from ..sheets.plan_sheets import AWAY, COUNTED
from ..week.faults import Misuse
from . import ward
from .arguments import Parser, check_verb, options_first, parser, verbs_table
from .week_options import check_seconds, number_of_seconds

# What the help says of the verbs: those of a folder's plan, and others before and after them.
_HELP = {
    "new": (
        "write an example spreadsheet into the folder, which is made if there is none; it begins on"
        " the next Monday"
    ),
    **{verb.usage: verb.effect for verb in VERBS},
    "serve": "a page in your browser that does the same",
    "files": "write the ward as text files, for inrc2pb, inrc2pb-roster and inrc2pb-solve",
}
_NAMES = (*dict.fromkeys((*(usage.split(" ")[0] for usage in _HELP), *BY_NAME)),)
# The verbs that search, or that a page with them begins.
_SEARCHES = ("serve", *(name for name, verb in BY_NAME.items() if verb.searches))
# The number of an address of version 6 by which a server is reached by all names of its machine;
# that of version 4 has several spellings.
_ALL_HOSTS = "::"
# What is said each time that a page can be read on its way to a browser.
_CLEAR_TEXT = (
    "in clear text: who reads your network reads this address and the roster, and can change it:"
    " let a proxy with TLS on this machine stand before it, as docs/serving.md shows, or serve only"
    " where you trust all"
)
_ORIGIN = re.compile(r"https?://[a-z0-9.-]+(:[0-9]{1,5})?")


def _options() -> Parser:
    options = parser(
        (
            "Plans a ward from one folder: its spreadsheet, and what verbs have made of"
            f" it.\n\n{verbs_table(_HELP)}"
        ),
        (
            "A day is Fri (the next one of the plan), Fri 2 (that of week 2), or a date. A name may"
            " be its beginning, if that is clear.\nThe folder gets roster.html, wall.html,"
            " calendars, and in plans each plan with its time: no verb changes an older one.\nThe"
            " sheets are shifts, contracts, nurses, needs and plan: new writes an example with all"
            " columns. Blanks in names become _.\nThe files are ward.txt, history-0.txt, facts.txt"
            " with the absences and the limits that hold (option --given of the other\ncommands),"
            " reasons.txt with the reasons of absences, and for each week N week-N.txt and"
            ' fix-N.txt, the shifts that are held.\nExample: inrc2pb-plan "my ward" ill Chen'
            " Fri Sun"
        ),
    )
    options.add_argument(
        "folder",
        metavar="FOLDER",
        type=Path,
        help="the folder that has the ward's spreadsheet, or its sheets as .csv files",
    )
    options.add_argument("verb", metavar="VERB", nargs="?", help="what to do")
    options.add_argument("words", metavar="WORD", nargs="*", default=[], help="names and days")
    options.add_argument(
        "--time",
        metavar="SECONDS",
        type=number_of_seconds,
        help=(
            f"the most seconds of a search in all (default: {WEEK_SECONDS:.0f} for each week of a"
            f" plan, {CHANGE_SECONDS:.0f} for a change); with set, 0 changes nothing else"
        ),
    )
    options.add_flag(
        "--do",
        "with swap, set or page: write it; with others: also a plan above a maximum with !, or one"
        " for which the next period gives shifts up",
    )
    options.add_flag(
        "--open", "with set, plan and days away: leave those shifts open that nobody else can take"
    )
    options.add_argument(
        "--port",
        metavar="N",
        type=int,
        default=0,
        help="with serve: the port (default: a free one)",
    )
    options.add_argument(
        "--host",
        metavar="NAME",
        default=LOCAL,
        help=(
            "with serve: the name or number of this machine (default: %(default)s, for its own"
            " users)"
        ),
    )
    options.add_argument(
        "--origin",
        metavar="URL",
        default="",
        help=(
            "with serve: how the address in browsers begins, as https://ward.example, if a proxy or"
            " a tunnel leads to this machine"
        ),
    )
    options.add_file(
        "--secret",
        "with serve: a file that keeps the secret of the address, so that a bookmark lives; it"
        " is made if there is none",
    )
    options.add_file(
        "--out", "with files: where they go (default: the ward's folder)", metavar="FOLDER"
    )
    options.add_argument(
        "--credit",
        metavar="WORDS",
        help=(
            f"with files: absences that count as work in history-0.txt, some of {','.join(AWAY)},"
            f" or none (default: {','.join(COUNTED)})"
        ),
    )
    options.add_flag(
        "--requests",
        "with files: absences in the weeks' files too, as many equal requests, for other"
        " solvers",
    )
    options.add_flag(
        "--free", "with plan: all shifts may change, also of a plan that hangs on the wall"
    )
    return options


def _check(given: argparse.Namespace) -> None:
    """Options and verbs fit."""
    otherwise = f"write one of {', '.join(_NAMES)}"
    if given.verb is None:
        raise Misuse(f"a verb is missing after the folder: {otherwise}")
    if given.verb not in _NAMES and Path(f"{given.folder} {given.verb}").is_dir():
        raise Misuse(
            f"write the folder in quotes: inrc2pb-plan '{given.folder} {given.verb}'"
            f" {' '.join(given.words)}".rstrip()
        )
    if given.verb not in _NAMES and str(given.folder) in _NAMES and not given.folder.exists():
        raise Misuse(
            f"the folder comes first: type inrc2pb-plan {shlex.quote(given.verb)} {given.folder}"
        )
    check_verb(given.verb, _NAMES)
    if given.do and given.verb in ("new", "check", "undo", "serve", "files"):
        raise Misuse(
            f"--do is for verbs that ask before they write: leave it out with {given.verb}"
        )
    if given.open and given.verb not in ("set", "plan", *AWAY):
        raise Misuse("--open is for set, plan and days away: leave it out")
    if given.free and given.verb != "plan":
        raise Misuse("--free is for plan: leave it out")
    _check_address(given)
    if (given.out or given.credit is not None or given.requests) and given.verb != "files":
        raise Misuse("--out, --credit and --requests are for files: leave them out")
    if given.words and given.verb in ("new", "check", "undo", "serve", "files"):
        raise Misuse(f"'{given.words[0]}' is a word too many: {given.verb} has none")
    if given.time is not None and given.verb not in _SEARCHES:
        raise Misuse(
            f"--time is for verbs that search, such as plan and ill: leave it out with {given.verb}"
        )
    if given.time and given.verb == "set" or given.time is not None and given.verb != "set":
        check_seconds(given.time, "--time")


def _check_address(given: argparse.Namespace) -> None:
    """The options of an address fit."""
    if (
        given.port or given.host != LOCAL or given.origin or given.secret
    ) and given.verb != "serve":
        raise Misuse("--port, --host, --origin and --secret are for serve: leave them out")
    if not 0 <= given.port < 65536:
        raise Misuse(f"--port {given.port}: give a number from 1024 to 65535")
    if given.origin and not _ORIGIN.fullmatch(given.origin):
        raise Misuse(
            f"--origin '{given.origin}': give the beginning of an address, as https://ward.example"
            " or http://localhost:9999"
        )
    if given.secret and given.secret.resolve().is_relative_to(given.folder.resolve()):
        raise Misuse(
            f"--secret {given.secret} is in the ward's folder, which others may read: name a file"
            " elsewhere"
        )
    number = _number_of(given.host)
    if not given.origin and (given.host == _ALL_HOSTS or (number and number.is_unspecified)):
        cure = (
            "give the name or number of this machine, or with --origin the address that browsers"
            " have"
        )
        raise Misuse(f"--host '{given.host}' is no address that a browser can open: {cure}")


def _number_of(host: str) -> ipaddress.IPv4Address | None:
    """The number that a host has, if this machine finds one."""
    try:
        return ipaddress.IPv4Address(socket.gethostbyname(host))
    except (OSError, UnicodeError):
        return None


def _is_local(host: str) -> bool:
    """Whether only programs of this machine reach a host."""
    number = _number_of(host)
    return number is not None and number.is_loopback


def _say(text: str) -> None:
    print(text, file=sys.stderr, flush=True)


def _serve(folder: WardFolder, given: argparse.Namespace) -> None:
    """Serves the local page until Ctrl-C."""
    secret = kept_secret(given.secret) if given.secret else ""
    with interrupts() as signals:
        try:
            server = LocalServer(
                Jobs(folder, signals, given.time),
                given.host,
                given.port,
                given.origin,
                secret,
            )
        except OSError as fault:
            cure = "give the name of this machine, and a free port"
            raise Misuse(
                f"--host {given.host} --port {given.port}: {fault.strerror}: {cure}"
            ) from fault
        print(
            f"open this address in a browser, and give it to nobody else: {server.address}",
            flush=True,
        )
        if not _is_local(given.host) or (
            given.origin.startswith("http:")
            and not _is_local(urlsplit(given.origin).hostname or "")
        ):
            _say(_CLEAR_TEXT)
        _say("Ctrl-C ends it")
        server.run(signals)


def _files(given: argparse.Namespace) -> list[str]:
    """Writes the text files of the ward, whose folder or spreadsheet is given. Returns the lines to
    print."""
    is_file = given.folder.is_file()
    tables = given.folder if is_file else WardFolder(given.folder).spreadsheet()
    credit = ",".join(COUNTED) if given.credit is None else given.credit
    return ward.files(
        tables,
        given.out or (given.folder.parent if is_file else given.folder),
        credit,
        given.requests,
    )


def _verbs(folder: WardFolder) -> Verbs:
    """The verbs of a folder. Their progress counts from now on."""
    return Verbs(folder, Means(WardProgress(sys.stderr), _say))


def main() -> int | None:
    """The command `inrc2pb-plan`."""
    given = _options().parse_args(options_first(sys.argv[1:]))
    _check(given)
    if given.verb == "new":
        print("\n".join(ward.new(given.folder, datetime.date.today())))
        return 0
    if given.verb == "files":
        print("\n".join(_files(given)))
        return 0
    folder = WardFolder(given.folder)
    event = Event(given.verb, tuple(given.words), given.time, given.free, given.do, open=given.open)
    if given.verb == "check":
        return _told(_verbs(folder).done(event))
    folder.spreadsheet()
    find_program()
    if given.verb == "serve":
        _serve(folder, given)
        return 0
    verbs: Verbs | None = None
    last: Path | None = None
    try:
        with folder.locked(_say, "; Ctrl-C ends it"):
            # The time of a search begins here.
            verbs = _verbs(folder)
            last = folder.last()
            outcome = verbs.done(event)
    except KeyboardInterrupt:
        if verbs is None or folder.last() == last:
            _say("nothing was written")
        else:
            _say(
                f"the verb {given.verb} has done its work, but pages may still show the plan before"
                " it: check names them"
            )
        raise
    return _told(outcome)


def _told(outcome: Outcome) -> int:
    """Prints the lines of an outcome; the exit status. Raises Interrupted if a signal has ended its
    search."""
    print("\n".join(outcome.lines("type it again with --do")), flush=True)
    if isinstance(outcome, Planned) and outcome.ended_by is not None:
        raise Interrupted(outcome.ended_by)
    return outcome.status.value
