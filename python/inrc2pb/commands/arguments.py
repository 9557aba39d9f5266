"""The parser of the commands' words. An option is given once, as for `inrc2pb`, unless it may be
repeated, and a wrong word gets a hint."""

import argparse
import functools
import os
import re
import shlex
import sys
from pathlib import Path
from typing import Any, Mapping, NoReturn, Sequence

from ..programs.program import run_program
from ..week.faults import Misuse
from ..week.slots import did_you_mean


class _Once(argparse.Action):
    """Stores the value of an option, or of a word without one. Raises ArgumentError if the option
    is given twice."""

    def __call__(
        self,
        parser: argparse.ArgumentParser,
        namespace: argparse.Namespace,
        values: Any,
        option: str | None = None,
    ) -> None:
        given = vars(namespace).setdefault("given", set())
        if option and self.dest in given:
            raise argparse.ArgumentError(self, "it is given twice: give it once")
        given.add(self.dest)
        setattr(namespace, self.dest, True if self.nargs == 0 else values)


class _Version(argparse.Action):
    """Prints the version of `inrc2pb`, with which the commands are installed."""

    def __call__(
        self,
        parser: argparse.ArgumentParser,
        namespace: argparse.Namespace,
        values: Any,
        option: str | None = None,
    ) -> None:
        print(run_program("--version"), end="")
        parser.exit()


class Parser(argparse.ArgumentParser):
    """A parser that says how to correct a word that it does not know, and options that are
    missing."""

    def __init__(self, *words: Any, **named: Any) -> None:
        super().__init__(*words, **named)
        self._given: Sequence[str] = ()
        self.register("action", None, _Once)
        self.register("action", "store", _Once)
        self.register("action", "store_true", functools.partial(_Once, nargs=0, default=False))

    def add_version(self) -> None:
        """Adds the option `--version`."""
        self.add_argument(
            "--version", action=_Version, nargs=0, help="print the version of inrc2pb and exit"
        )

    def add_file(
        self, option: str, asks: str, required: bool = False, metavar: str = "FILE"
    ) -> None:
        """Adds an option that names a file or a folder."""
        self.add_argument(option, metavar=metavar, type=Path, required=required, help=asks)

    def add_files(
        self, option: str, asks: str, required: bool = False, nargs: int | str = "+"
    ) -> None:
        """Adds an option that names files, and may be repeated."""
        self.add_argument(
            option,
            metavar="FILE",
            type=Path,
            nargs=nargs,
            action="extend",
            default=None if required else [],
            required=required,
            help=asks,
        )

    def add_fix(self, asks: str) -> None:
        """Adds the option that names the fix files of weeks."""
        self.add_argument("--fix", metavar="[N=]FILE", action="append", default=[], help=asks)

    def add_flag(self, option: str, asks: str) -> None:
        """Adds an option without a value."""
        self.add_argument(option, action="store_true", help=asks)

    def add_out(self) -> None:
        """Adds the option that names the file for what a verb prints."""
        self.add_file("--out", "write to this file, not to standard output")

    def parse_args(self, args: Sequence[str] | None = None, namespace: Any = None) -> Any:
        """Returns the values of the command line. A mistake is printed, and ends the program."""
        self._given = sys.argv[1:] if args is None else list(args)
        for word in self._given:
            if re.match(r"--(sce|his|week|fix)\s", word):
                self.error(f"'{word}' is one word: write $WEEK without quotes, in bash")
        return super().parse_args(args, namespace)

    def error(self, message: str) -> NoReturn:
        """Prints the fault and its advice, and exits."""
        _, is_unknown, words = message.partition("unrecognized arguments: ")
        if is_unknown or "arguments are required: " in message:
            message += (
                self._about_options()
                or self._about_files(words)
                or _about_words(words, self._given)
            )
        if "--sce, --his, --week" in message and "did you mean" not in message:
            message += ": is WEEK set in this terminal?"
        super().error(message)

    def _about_options(self) -> str:
        """The advice about the first option that this command does not have."""
        options = re.findall(r"--[a-zA-Z0-9-]+", self.format_usage())
        named = [word.split("=")[0] for word in self._given if re.match("--[a-zA-Z]", word)]
        unknown = next((name for name in named if name not in options and name != "--help"), "")
        if not unknown:
            return ""
        advice = did_you_mean(unknown[2:], [option[2:] for option in options], "", "--{}".format)
        return f": {unknown}: {advice}" if advice else ""

    def _about_files(self, unknown: str) -> str:
        """The advice if a file is given without its option."""
        takes_rosters = any("--roster" in action.option_strings for action in self._actions)
        are_files = bool(unknown) and all(os.path.exists(word) for word in unknown.split())
        return (
            ": give rosters after --roster, and each other file after its option"
            if takes_rosters and are_files
            else ""
        )


def _about_words(unknown: str, given: Sequence[str]) -> str:
    """The advice about words that are no options."""
    if not unknown or unknown.startswith("-"):
        return ""
    if any(word.endswith(",") for word in given):
        return ": write no blank between the days or names, as in Mon,Tue"
    return ": rename a file or folder whose path has a blank, and write an option before each file"


def parser(description: str, epilog: str | None = None, verb: str = "") -> Parser:
    """A parser whose help keeps the lines of its description. An option has to be written out, as
    for `inrc2pb`. `verb` follows the name of the command."""
    command = os.path.basename(sys.argv[0])
    options = Parser(
        prog=f"{command} {verb}" if verb else command,
        description=description,
        epilog=epilog,
        formatter_class=argparse.RawDescriptionHelpFormatter,
        allow_abbrev=False,
    )
    options.add_version()
    return options


def verbs_table(verbs: Mapping[str, str]) -> str:
    """Verbs and what they do, a line for each, for the help."""
    width = max(map(len, verbs))
    return "\n".join(f"  {usage:{width}}  {text}" for usage, text in verbs.items())


def check_verb(verb: str, verbs: Sequence[str]) -> None:
    """Raises Misuse if there is no such verb."""
    if verb not in verbs:
        otherwise = f"write one of {', '.join(verbs)}"
        raise Misuse(f"'{verb}' is no verb: {did_you_mean(verb, verbs, otherwise)}")


def as_typed(words: Sequence[object]) -> str:
    """The words as a user types them in a shell."""
    return " ".join(shlex.quote(str(word)) for word in words)


def options_first(words: Sequence[str]) -> list[str]:
    """The words with the options before all others, as the parser wants them."""
    options: list[str] = []
    others: list[str] = []
    for before, word in zip(["", *words], words):
        is_value = before in (
            "--time",
            "--port",
            "--host",
            "--origin",
            "--secret",
            "--out",
            "--credit",
        )
        (options if word.startswith("-") or is_value else others).append(word)
    return [*options, *others]
