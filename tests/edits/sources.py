"""What the refusals of a crate's edits depend on, as a checksum: the kit and HANDLES, all files of
the crate, and of the crates below it those that it can cite.

`Answers.antt` and `Invariants.antt` prove one function, and the crates above know that function by
its contract alone. No proof searches what it does not name, and no file may name the module of such
a proof: `sums` refuses that. So another proof of the same contract changes no verdict above, and
that it is a proof is seen when the crates below are built, before an edit is tried.
"""

import hashlib
import re
from pathlib import Path
from typing import Dict, Iterable

import build

OF_A_FUNCTION = ("Answers.antt", "Invariants.antt")
# The module of such a file, as a proof or an attribute names it; definitions may have a module of
# the same name.
CITED = re.compile(r"(?<!specs)(?:\.|::)«?(?:Answers|Invariants)\b")


def is_for_others(crate: build.Crate, path: Path) -> bool:
    """Whether crates above can cite this file of the crate: all but the proofs of one function."""
    return path.name not in OF_A_FUNCTION or crate.home / "proofs" not in path.parents


def sum_of(crate: build.Crate, paths: Iterable[Path]) -> str:
    """A checksum of the crate's line, and of these of its files."""
    whole = hashlib.sha256(crate.line.encode())
    for path in paths:
        whole.update(repr((str(path.relative_to(crate.home)), path.read_bytes())).encode())
    return whole.hexdigest()


def refuse_cited_proofs(crate: build.Crate) -> None:
    """Raises build.Failed if a file or an edit of the crate names the module of a function's
    proof."""
    for path in [*crate.sources(), *sorted((crate.home / "must-fail").glob("*.edit"))]:
        if CITED.search(path.read_text(encoding="utf-8")):
            raise build.Failed(
                f"{path.relative_to(build.ROOT)} cites the proof of a function, and the records do"
                " not see its changes: give the lemma a module of its own"
            )


def sums(crates: Dict[str, build.Crate]) -> Dict[str, str]:
    """For each crate a checksum of all that the refusals of its edits depend on.

    Raises build.Failed if a file cites the proof of a function.
    """
    shown: Dict[str, str] = {}
    found: Dict[str, str] = {}
    tools = build.kit() + (build.ROOT / "HANDLES").read_text(encoding="utf-8")
    for name, crate in crates.items():
        refuse_cited_proofs(crate)
        shown[name] = sum_of(
            crate, (path for path in crate.sources() if is_for_others(crate, path))
        )
        parts = [sum_of(crate, crate.sources()), *(shown[other] for other in sorted(crate.below))]
        found[name] = hashlib.sha256(" ".join([tools, *parts]).encode()).hexdigest()
    return found
