#!/usr/bin/env python3
"""Follows the links of pages to other pages and to their headings.

    tests/pages/links.py PAGE ..

Prints each link that leads to no file, or to no heading of it, and ends with 1 if there is one. A
heading has the name that GitHub gives it: `## When, and why?` is `#when-and-why`, and the second
one of the same name on a page ends with `-1`.
"""

import collections
import functools
import re
import sys
from pathlib import Path
from typing import Counter, FrozenSet, Iterator, List

_BLOCK = re.compile("^```.*?^```", re.MULTILINE | re.DOTALL)
_HEADING = re.compile("^#+ (.*)", re.MULTILINE)
_LINK = re.compile(r"\]\(([^)\s]+)\)")


def prose(page: Path) -> str:
    """The text of a page without its blocks of code."""
    return _BLOCK.sub("", page.read_text(encoding="utf-8"))


def name_of(heading: str) -> str:
    """The name by which links know a heading."""
    words = re.sub(r"\[([^]]*)\]\([^)]*\)", r"\1", heading).strip().lower()
    return re.sub(r"[^\w\- ]", "", words).replace(" ", "-")


@functools.lru_cache(maxsize=None)
def headings(page: Path) -> FrozenSet[str]:
    """The names of the headings of a page."""
    seen: Counter[str] = collections.Counter()
    names: List[str] = []
    for name in map(name_of, _HEADING.findall(prose(page))):
        names.append(f"{name}-{seen[name]}" if seen[name] else name)
        seen[name] += 1
    return frozenset(names)


def dead_links(page: Path) -> Iterator[str]:
    """Why the links of a page lead nowhere, for each that does not. Links to other sites are not
    followed."""
    for link in _LINK.findall(prose(page)):
        file, _, heading = link.partition("#")
        target = (page.parent / file).resolve() if file else page.resolve()
        if "://" in link:
            continue
        if not target.exists():
            yield f"{page}: there is no {link}"
        elif heading and heading not in headings(target):
            yield f"{page}: {link}: there is no such heading"


def main() -> int:
    """Prints the dead links; the exit status."""
    found = [line for page in sys.argv[1:] for line in dead_links(Path(page))]
    for line in found:
        print(line)
    return 1 if found else 0


if __name__ == "__main__":
    sys.exit(main())
