#!/usr/bin/env python3
"""Checks the imports between the modules of the Python package: one package may import only what
allowed.txt lists for it, no modules import one another in a circle, and no module imports a private
name of another. Modules of a package that allowed.txt calls `apart` do not import one another.

  python/tests/packages.py [FOLDER [ALLOWED]]

A line of ALLOWED is `package: package ..`. Prints each fault; status 1 if there is one.
"""

import ast
import sys
from pathlib import Path
from typing import Dict, Iterator, List, Set, Tuple

# A module's path below the folder, without `.py`.
Module = Tuple[str, ...]


def modules_of(folder: Path) -> Dict[Module, Path]:
    """The modules of a folder."""
    return {
        path.relative_to(folder).with_suffix("").parts: path
        for path in sorted(folder.rglob("*.py"))
    }


def imports_of(module: Module, modules: Dict[Module, Path]) -> Iterator[Tuple[Module, str]]:
    """The modules that a module imports, each with the name that it takes from it."""
    for node in ast.walk(ast.parse(modules[module].read_text())):
        if isinstance(node, ast.ImportFrom) and node.level:
            source = module[: len(module) - node.level] + tuple(
                filter(None, (node.module or "").split("."))
            )
            for alias in node.names:
                inner = (*source, alias.name)
                yield (inner, "") if inner in modules else (source, alias.name)


def in_circles(imports: Dict[Module, Set[Module]]) -> List[Module]:
    """The modules that import one another in circles."""
    left = dict(imports)
    while True:
        used = {other for module, needed in left.items() for other in needed & set(left)}
        outer = [
            module
            for module, needed in left.items()
            if module not in used or not needed & set(left)
        ]
        if not outer:
            return sorted(left)
        for module in outer:
            del left[module]


def faults(folder: Path, allowed: Dict[str, Set[str]]) -> Iterator[str]:
    """The faults of the modules of a folder, as lines."""
    modules = modules_of(folder)
    imports: Dict[Module, Set[Module]] = {}
    for module in modules:
        named = ".".join(module)
        imports[module] = set()
        for source, name in imports_of(module, modules):
            imports[module].add(source)
            if len(module) > 1 and source[0] not in (module[0], *allowed.get(module[0], ())):
                yield f"{named} imports {'.'.join(source)}: {module[0]} may not import {source[0]}"
            if source[:-1] == module[:-1] and "apart" in allowed.get(".".join(module[:-1]), ()):
                yield f"{named} imports {'.'.join(source)}: these do not know one another"
            if name.startswith("_"):
                yield f"{named} imports {name}, a private name of {'.'.join(source)}"
    for module in in_circles(imports):
        yield f"{'.'.join(module)} is in a circle of imports"


def main() -> int:
    """Reads the doors that are allowed, and prints the faults; the exit status."""
    here = Path(__file__).resolve().parent
    folder, allowed = [
        *map(Path, sys.argv[1:]),
        *(here.parents[1] / "python" / "inrc2pb", here / "allowed.txt")[len(sys.argv) - 1 :],
    ]
    lines = (line.split(":") for line in allowed.read_text().splitlines())
    found = list(faults(folder, {package: set(others.split()) for package, others in lines}))
    for fault in found:
        print(fault)
    return int(bool(found))


if __name__ == "__main__":
    sys.exit(main())
