#!/usr/bin/env python3
"""Says which edit of crates/*/must-fail/ changes which function, and whether each of them still
applies.

usage: edits.py [map | many | none | stale] [CRATE..]

  map     each function that an edit changes, its promises, and its edits
  many    the same, for functions with two edits or more
  none    the public functions that no edit changes, without those that need none: the laws, whose
          bodies call laws or nothing, the drops, which promise nothing, functions that change
          nothing and have a promise that fixes the result, and functions whose promises are
          equations
  stale   the edits whose old text is not in its file exactly once; the word may be left out

A promise is shown by its label, or by its text if it has none; `=` precedes one that fixes the
whole result. Ends with status 1 if an edit is stale. Nothing is proved: it takes a second.
"""

import glob
import os
import re
import sys
from collections import namedtuple
from pathlib import Path

FUNCTION = re.compile(r"( *)(pub(?:\(\w+\))? )?(?:const |unsafe |ghost )*fn (\w+)")
CITES = re.compile(r"\s*(\w+\(\);\s*)*")
OWNER = re.compile(r"(?:pub |unsafe )*(impl|trait)\b(?:<[^>]*>)? (.*?)\s*(?:\{|where|$)")
PROMISE = re.compile(
    r"(?m)^ +ensures (\w+)? ?\{ ?((?:.(?!\n +(?:ensures|requires) |\n *\{))*.)", re.S
)
EXACT = re.compile(r"(let .*? in )?result(\.now)? ≡ ")
# What a promise says of the result of a call or of its content, which gets a name, or of no result.
EQUATION = re.compile(
    r"(?:let .*? in )?(?:(?:If|On)(?:Ok|Err) result \((?:λ (\w+)\. )?)?([\w.]+) ≡ ([^→≡]*)$"
)
Function = namedtuple("Function", "name first last public law fixed promises clauses")


def is_equation(text):
    """Whether the promise fixes the result, what the call changes, or a part of these, in words that
    name neither."""
    found = EQUATION.match(text.rstrip(" }"))
    if not found:
        return False
    content, left, right = found.groups()
    results = {"result", content or "result"}
    is_made = left.split(".")[0] in results or ".new" in left
    return is_made and not results & set(re.findall(r"\w+", right)) and ".new" not in right


def is_exact(text):
    """Whether the promise fixes the whole result."""
    return is_equation(text) and bool(EXACT.match(text))


def promise(label, text):
    """A promise in a few words."""
    text = text.rstrip(" }")
    exact = "=" if is_exact(text) else ""
    return exact + (label or re.sub(r"^let .*? in ", "", text)[:60])


def fix_all(promises):
    """Whether the promises leave no choice: nothing changes and one fixes the result, or all are
    equations."""
    promises = list(promises)
    if any(is_exact(one) for one in promises) and not any(".new" in one for one in promises):
        return True
    return promises != [] and all(is_equation(one) for one in promises)


def named(header):
    """The words of an impl's header that name its trait and its type."""
    parts = [re.match(r"[\w:]+", part.strip()) for part in header.split(" for ")]
    return [part.group().split("::")[-1] for part in parts if part]


def without(prefix, text):
    """The text after this prefix, if it begins with it."""
    return text[len(prefix) :] if text.startswith(prefix) else text


def body_of(lines, head, indent):
    """The lines where the body of the function at this line begins and ends: `rt fmt` puts its
    brace below the `fn`."""
    for begin in range(head, len(lines)):
        rest = without(indent, lines[begin])
        if (
            rest in ("{", "{}")
            or rest[:1].strip()
            and rest.endswith((" {", " }", ";"))
            or rest.endswith(" };")
        ):
            break
    if not rest.endswith("{"):
        return begin, begin
    return begin, lines.index(indent + "}", begin)


def functions(path, module, exports, is_open):
    """The functions of a file, in its order."""
    lines = Path(path).read_text(encoding="utf-8").split("\n")
    owner = []
    shares = False
    found = []
    for start, line in enumerate(lines):
        head = FUNCTION.match(line)
        if re.match(r"[a-z]", line) and not head:
            block = OWNER.match(line)
            owner = named(block.group(2)) if block else []
            shares = bool(block) and (" for " in line or block.group(1) == "trait")
        if not head:
            continue
        indent, visible, name = head.groups()
        begin, end = body_of(lines, start, indent)
        outer = owner if indent else []
        seen = outer[-1] in exports if outer else f"{module}::{name}" in exports
        public = (visible == "pub " or shares and outer != []) and (seen or is_open)
        clauses = [
            (label, " ".join(text.split()))
            for label, text in PROMISE.findall("\n".join(lines[start : begin + 1]))
        ]
        whole = "::".join([" for ".join(outer), name] if outer else [name])
        law = bool(CITES.fullmatch("".join(lines[begin + 1 : end])))
        fixed = fix_all(text.rstrip(" }") for _, text in clauses)
        found.append(
            Function(
                whole,
                start,
                end,
                public,
                law,
                fixed,
                [promise(*clause) for clause in clauses],
                clauses,
            )
        )
    return found


def exported(path):
    """The names and the modules that a module's file makes public."""
    text = Path(path).read_text(encoding="utf-8") if os.path.exists(path) else ""
    uses = [re.findall(r"\w+", use) for use in re.findall(r"^pub use ([^;]*);", text, re.M)]
    names = {name for use in uses for name in use} | {
        f"{use[0]}::{name}" for use in uses for name in use[1:]
    }
    return names, re.findall(r"^pub mod (\w+);", text, re.M)


def seen_of(crate, place, names, modules):
    """Those of a file's names that its folder hands on, and the crate's root."""
    told, _ = exported(f"{crate}/src/{place[0]}.rt")
    return {
        name
        for name in told
        if place[0] in modules or f"{place[0]}::{name.split('::')[-1]}" in names
    }


def surface(crate):
    """The functions of each source file of the crate."""
    root = next(
        (path for path in (f"{crate}/src/lib.rt", f"{crate}/src/main.rt") if os.path.exists(path)),
        "",
    )
    names, modules = exported(root)
    tables = {}
    for path in sorted(glob.glob(f"{crate}/src/**/*.rt", recursive=True)):
        place = os.path.splitext(os.path.relpath(path, f"{crate}/src"))[0].split("/")
        seen = names if len(place) == 1 else seen_of(crate, place, names, modules)
        tables[path] = functions(path, place[-1], seen, place[0] in modules and len(place) == 1)
    return tables


def turned(edit, crate):
    """The places, as file and line, that an edit turns; and why it no longer applies, or None."""
    path = None
    old = None
    texts = {}
    places = []
    for line in Path(edit).read_text(encoding="utf-8").split("\n"):
        if line.startswith("file: "):
            path = f"{crate}/{line[6:].strip()}"
            if path not in texts and not os.path.exists(path):
                return places, f"there is no {path}"
            texts.setdefault(path, None)
            texts[path] = texts[path] or Path(path).read_text(encoding="utf-8")
        elif line.startswith("old: "):
            old = line[5:]
        elif line.startswith("new:"):
            if texts[path].count(old) != 1:
                return places, f"{texts[path].count(old)} times in {path}: {old}"
            places.append((path, texts[path][: texts[path].index(old)].count("\n")))
            texts[path] = texts[path].replace(old, without(" ", line[4:]))
    return places, None


def edits_by_function(crate, tables):
    """The names of the edits that turn each function, known by its file and first line; and what is
    stale."""
    edits_of = {}
    stale = []
    for edit in sorted(glob.glob(f"{crate}/must-fail/*.edit")):
        name = os.path.splitext(os.path.basename(edit))[0]
        places, fault = turned(edit, crate)
        stale += [f"STALE {edit}: {fault}"] if fault else []
        for path, line in places:
            inside = [one.first for one in tables.get(path, []) if one.first <= line <= one.last]
            edits_of.setdefault((path, inside[-1] if inside else None), {})[name] = True
    return edits_of, stale


def needs_edit(one):
    """Whether a public function changes something, or has no promise that fixes its result."""
    return one.public and not one.law and not one.name.endswith("::drop") and not one.fixed


def tell(asked, path, one, edits):
    """Prints the function where it is asked for."""
    line = f"{path}: {one.name} [{', '.join(one.promises)}]"
    if asked == "none" and needs_edit(one) and not edits:
        print(line)
    if asked == "map" and edits or asked == "many" and len(edits) > 1:
        print(f"{line}\n    {' '.join(edits)}")


def main():
    """Tells what was asked for."""
    words = sys.argv[1:]
    asked = words.pop(0) if words and words[0] in ("map", "many", "none", "stale") else "stale"
    os.chdir(Path(__file__).resolve().parents[2])
    crates = [f"crates/{word}" for word in words] or [
        os.path.dirname(path) for path in sorted(glob.glob("crates/*/must-fail"))
    ]
    count = bad = 0
    for crate in crates:
        tables = surface(crate)
        edits_of, stale = edits_by_function(crate, tables)
        count = count + len(glob.glob(f"{crate}/must-fail/*.edit"))
        bad = bad + len(stale)
        for line in stale:
            print(line)
        for path, found in tables.items():
            for one in [*found, Function("(no function)", None, None, False, True, False, [], [])]:
                tell(asked, path, one, edits_of.get((path, one.first), {}))
    print(f"{count} edits, {bad} stale")
    sys.exit(bad > 0)


if __name__ == "__main__":
    main()
