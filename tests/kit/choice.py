"""The tests of Python that are most likely to notice a change of some files.

A test that imports a changed file notices most, and so does one that calls it as a command or names
it, also by the test's own name. Those that import a file that imports the changed one come next, with
the tests of the changed package, and so on. Of tests that are equally near, those that need the
fewest seconds come first.
"""

import ast
from pathlib import Path
from typing import (
    Collection,
    Dict,
    FrozenSet,
    Iterable,
    Iterator,
    List,
    Mapping,
    NamedTuple,
    Tuple,
)

LIBRARY = "python/inrc2pb"
TESTS = "python/tests"
# The folders of other files that tests import.
PROGRAMS = ("bench", "certified", "tests/kit", ".")
# The seconds of a test that was never measured.
UNMEASURED = 0.5


class Source(NamedTuple):
    """What the choice knows of a file of Python."""

    imports: FrozenSet[str]  # the files that it imports, or whose command it calls
    words: FrozenSet[str]  # its strings, such as the names of commands
    tests: Tuple[str, ...]  # its tests, as pytest names them: `Class::test_name`


class Choice(NamedTuple):
    """The tests that are run, and those that are left out, as pytest names them."""

    run: List[str]
    left_out: List[str]


# ---- the files


class Import(NamedTuple):
    """An import of a file: of a module, or of a name of a module."""

    module: str
    name: str
    own: str  # the name that the file has for it


def read_sources(root: Path) -> Dict[str, Source]:
    """The library, the tests and the programs of a repository, by their paths below its top."""
    patterns = [f"{LIBRARY}/**/*.py", f"{TESTS}/**/*.py", *(f"{one}/*.py" for one in PROGRAMS)]
    files = [
        str(path.relative_to(root)) for pattern in patterns for path in sorted(root.glob(pattern))
    ]
    modules = {module_name(file): file for file in reversed(files)}
    nodes = {file: list(ast.walk(ast.parse((root / file).read_bytes()))) for file in files}
    imports = {file: list(imports_of(file, nodes[file])) for file in files}
    modules_in = {file: dict(modules_of(imports[file], modules)) for file in files}
    return {
        file: Source(
            frozenset({*files_of(imports[file], modules, modules_in), *commands_of(nodes[file])}),
            frozenset(strings_of(nodes[file])),
            tuple(tests_of(nodes[file][0])) if Path(file).name.startswith("test_") else (),
        )
        for file in files
    }


def module_name(file: str) -> str:
    """The name by which other files import a file."""
    path = Path(file).with_suffix("")
    return ".".join(path.parts[1:]) if file.startswith(LIBRARY) else path.name


def imports_of(file: str, nodes: Iterable[ast.AST]) -> Iterator[Import]:
    """The imports of a file with these nodes."""
    package = module_name(file).split(".")
    for node in nodes:
        if isinstance(node, ast.Import):
            yield from (Import(alias.name, "", alias.asname or alias.name) for alias in node.names)
        elif isinstance(node, ast.ImportFrom):
            above = package[: len(package) - node.level] if node.level else []
            module = ".".join([*above, *filter(None, [node.module])])
            yield from (
                Import(module, alias.name, alias.asname or alias.name) for alias in node.names
            )


def modules_of(imports: Iterable[Import], modules: Mapping[str, str]) -> Iterator[Tuple[str, str]]:
    """The names that a file has for modules, each with the module's file."""
    for module, name, own in imports:
        target = modules.get(f"{module}.{name}" if name else module)
        if target:
            yield own, target


def files_of(
    imports: Iterable[Import],
    modules: Mapping[str, str],
    modules_in: Mapping[str, Mapping[str, str]],
) -> Iterator[str]:
    """The files that are imported. A module that is taken from a helper of the tests, as in `from
    ward import program`, counts in place of the helper."""
    for module, name, _ in imports:
        file = modules.get(module, "")
        target = modules.get(f"{module}.{name}") or modules_in.get(file, {}).get(name) or file
        if target:
            yield target


def strings_of(nodes: Iterable[ast.AST]) -> Iterator[str]:
    """The strings among these nodes."""
    for node in nodes:
        if isinstance(node, ast.Constant) and isinstance(node.value, str):
            yield node.value


def commands_of(nodes: Iterable[ast.AST]) -> Iterator[str]:
    """The files of the commands that these nodes may call, as `run("roster", "referee")` calls
    commands/referee.py."""
    yield from (f"{LIBRARY}/commands/{word}.py" for word in strings_of(nodes))


def tests_of(tree: ast.AST) -> Iterator[str]:
    """The tests of a file."""
    for node in ast.iter_child_nodes(tree):
        if isinstance(node, ast.ClassDef):
            yield from (f"{node.name}::{name}" for name in tests_of(node))
        elif isinstance(node, ast.FunctionDef) and node.name.startswith("test_"):
            yield node.name


# ---- the choice


def distances(changed: Collection[str], sources: Mapping[str, Source]) -> Dict[str, int]:
    """For each file that a change can reach, how many imports it is away from the changed files. A
    file that names a changed one is 1 away, and the tests of a changed package are at most 2."""
    away = dict.fromkeys(changed, 0)
    names = set(names_of(changed))
    reached = set(changed)
    while reached:
        distance = max(away.values()) + 1
        reached = {
            file
            for file, source in sources.items()
            if file not in away
            and (source.imports & reached or distance == 1 and source.words & names)
        }
        away.update(dict.fromkeys(reached, distance))
    packages = {Path(file).parent.name for file in changed}
    for file, source in sources.items():
        if source.tests and Path(file).parent.name in packages:
            away[file] = min(away.get(file, 2), 2)
    return away


def names_of(changed: Iterable[str]) -> Iterator[str]:
    """The strings by which tests name changed files, such as `ward` for a file of examples/ward;
    a page only by its own name."""
    for path in map(Path, changed):
        yield path.name
        if path.suffix not in (".py", ".md"):
            yield path.parent.name


def is_named(names: Collection[str], test: str) -> bool:
    """Whether the name of a test has one of these words, as `test_a_swap_of_nights` has `swap`."""
    return any(word.rstrip("s") in names for word in test.rpartition("::")[2].split("_"))


def choose(
    changed: Collection[str],
    sources: Mapping[str, Source],
    seconds: Mapping[str, float],
    limit: float,
) -> Choice:
    """The tests that a change can reach, as many as this number of seconds allows, the nearest
    first. The seconds of tests are those of an earlier run."""
    away = distances(changed, sources)
    names = {Path(file).stem.rstrip("s") for file in changed}
    ordered = sorted(
        (
            min(away[file], 1) if is_named(names, name) else away[file],
            seconds.get(test, UNMEASURED),
            test,
        )
        for file, source in sources.items()
        if file in away
        for name, test in ((name, f"{file}::{name}") for name in source.tests)
    )
    choice = Choice([], [])
    for _, cost, test in ordered:
        is_run = cost <= limit
        (choice.run if is_run else choice.left_out).append(test)
        limit -= cost if is_run else 0
    return choice
