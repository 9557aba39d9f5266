"""The lists of what no script sees guarded, each with what ties it.

A line has a name, and after a colon a reason, or several with semicolons between. The first word of
a reason is its kind. These kinds are looked up; the head of a list explains its other ones.

  edit NAME   this edit of must-fail/ breaks it, and is refused at a goal for which a proof was
              searched
  law NAME    this law of a crate, or of its specs/, needs it
  proof NAME  this lemma or answer of proofs/ needs it
  by TEXT     its definition has this text, which leaves no choice
"""

import re
import sys
from pathlib import Path
from typing import Dict, Iterator

ROOT = Path(__file__).resolve().parents[2]
sys.path.insert(0, str(ROOT / "tests" / "edits"))

import record  # noqa: E402

# The kinds of reasons that name what needs a promise.
TIES = ("edit", "law", "proof")


def listed(file: Path) -> Dict[str, str]:
    """The names of a list, each with its reason."""
    lines = file.read_text(encoding="utf-8").splitlines() if file.exists() else []
    pairs = (line.partition(": ") for line in lines if line and not line.startswith("#"))
    return {name.strip().rstrip(":"): reason.strip() for name, _, reason in pairs}


def is_declared(pattern: str, folders: str) -> bool:
    """Whether a source, definition or proof of these folders has this text."""
    found = re.compile(pattern, re.M)
    files = (
        file for folder in folders.split() for file in ROOT.glob(f"crates/*/{folder}/**/*.*t*")
    )
    return any(found.search(file.read_text(encoding="utf-8")) for file in files)


def fault_of_edit(name: str) -> str:
    """Why an edit of this name ties nothing. One that no record has yet will be tried."""
    homes = [file.parents[1] for file in ROOT.glob(f"crates/*/must-fail/{name}.edit")]
    entries = [record.read(home / "edits.txt").get(name) for home in homes]
    if not homes:
        return f"there is no edit {name}"
    if all(entry is not None and record.rests_on_answers(entry) for entry in entries):
        return f"only answers that no longer fit refuse {name}"
    return ""


def fault_of(reason: str, definition: str) -> str:
    """What is wrong with the reason of something with this definition, or nothing."""
    kind, _, what = reason.partition(" ")
    what = what if kind == "by" else what.partition(",")[0]
    if kind == "edit":
        return fault_of_edit(what)
    if kind == "law" and not is_declared(rf"\bpub (?:fn )?{re.escape(what)}\b", "src specs"):
        return f"there is no law {what}"
    if kind == "proof" and not is_declared(rf"^ *(?:pub )?{re.escape(what)} :", "proofs"):
        return f"there is no proof {what}"
    if kind == "by" and what not in " ".join(definition.split()):
        return f"its definition has no '{what}'"
    return "" if reason else "its line says nothing"


def tie_of(reason: str) -> str:
    """The first kind of the reason that names what needs the promise, or `nothing`."""
    kinds = (one.partition(" ")[0] for one in reason.split("; "))
    return next((kind for kind in kinds if kind in TIES), "nothing")


def differences(file: Path, found: Dict[str, str]) -> Iterator[str]:
    """What a list does not agree on with what was found, where each name has its definition."""
    known = listed(file)
    path = file.relative_to(ROOT)
    for name, definition in found.items():
        if name not in known:
            yield f"{name}: write an edit or a law, and a line in {path} that says what ties it"
        for fault in (fault_of(reason, definition) for reason in known.get(name, "").split("; ")):
            if fault and name in known:
                yield f"{name}: {path}: {fault}"
    for name in known:
        if name not in found:
            yield f"{name}: {path} lists it, and it has a guard or is gone"


def write(file: Path, reasons: Dict[str, str]) -> None:
    """Writes the list with these names, below its head. The order of its lines stays, and those of
    new names come last."""
    lines = file.read_text(encoding="utf-8").splitlines(keepends=True)
    head = "".join(line for line in lines if line.startswith("#"))
    known = [name for name in listed(file) if name in reasons]
    names = [*known, *(name for name in reasons if name not in known)]
    text = "".join(f"{name}: {reasons[name]}".rstrip() + "\n" for name in names)
    file.write_text(head + text, encoding="utf-8")
