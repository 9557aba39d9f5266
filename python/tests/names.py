#!/usr/bin/env python3
"""Finds variables with a preposition for a name, `of` or `at`, in the Python files of the
repository.

usage: names.py [FILE]..

Without files it reads all that git knows. Prints each place; status 1 if there is one.
"""

import ast
import subprocess
import sys
from pathlib import Path
from typing import Iterator, List

ROOT = Path(__file__).resolve().parents[2]
PREPOSITIONS = ("of", "at")


def python_files() -> List[Path]:
    """The Python files of the repository, those without an ending too."""
    listed = subprocess.run(
        ["git", "ls-files", "-z"],
        cwd=ROOT,
        stdout=subprocess.PIPE,
        check=True,
        universal_newlines=True,
    ).stdout
    files = [ROOT / name for name in listed.split("\0") if name]
    return [
        file
        for file in files
        if file.is_file()
        and (file.suffix == ".py" or file.read_bytes()[:40].startswith(b"#!/usr/bin/env python3"))
    ]


def faults(file: Path) -> Iterator[str]:
    """The lines with such a variable: it is assigned, a parameter, or the name of an import."""
    for node in ast.walk(ast.parse(file.read_bytes())):
        name = None
        if isinstance(node, ast.Name) and isinstance(node.ctx, ast.Store):
            name = node.id
        elif isinstance(node, ast.arg):
            name = node.arg
        elif isinstance(node, ast.ExceptHandler):
            name = node.name
        if name in PREPOSITIONS:
            yield f"{file}:{node.lineno}: a variable `{name}`"


def main(words: List[str]) -> int:
    """Prints the places; the exit status."""
    found = [
        fault for file in (map(Path, words) if words else python_files()) for fault in faults(file)
    ]
    for fault in found:
        print(fault)
    return int(bool(found))


if __name__ == "__main__":
    sys.exit(main(sys.argv[1:]))
