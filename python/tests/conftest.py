"""Keeps the processor seconds of each test, from which tests/kit/check.py sees how many tests it can
run."""

import compileall
import gc
import json
import os
from pathlib import Path

import pytest

LIBRARY = Path(__file__).resolve().parents[1] / "inrc2pb"
# A dictionary: tests, as pytest names them, and their seconds.
KEPT = Path(__file__).resolve().parents[2] / "out" / "test-seconds.json"
BEGAN = pytest.StashKey()
PROPERTY = "processor seconds"
measured = {}


def processor_seconds():
    """Those of this process, and of its children that have ended."""
    return sum(os.times()[:4])


def pytest_configure(config):
    """The library is compiled once, and not by each program that a test starts, if the caller wants
    Python to keep no compiled files."""
    if not hasattr(config, "workerinput"):
        compileall.compile_dir(LIBRARY, quiet=2)


def pytest_collection_finish():
    """What the tests have loaded is no garbage. Each collection would look through all of it, and
    one in a copy of this process would make the copy write, and so own, all of its pages."""
    gc.collect()
    gc.freeze()


@pytest.hookimpl(tryfirst=True)
def pytest_runtest_setup(item):
    item.stash[BEGAN] = processor_seconds()


@pytest.hookimpl(tryfirst=True)
def pytest_runtest_makereport(item, call):
    # This report is the last one of a test, and goes to the process that collects the results.
    if call.when == "teardown":
        item.user_properties.append((PROPERTY, processor_seconds() - item.stash[BEGAN]))


def pytest_runtest_logreport(report):
    if report.when == "teardown":
        measured[report.nodeid] = round(dict(report.user_properties)[PROPERTY], 2)


def pytest_sessionfinish(session):
    """The process that collects the results adds them to those of earlier runs."""
    if measured and not hasattr(session.config, "workerinput"):
        kept = json.loads(KEPT.read_text()) if KEPT.exists() else {}
        new = KEPT.with_suffix(f".{os.getpid()}")
        KEPT.parent.mkdir(exist_ok=True)
        new.write_text(json.dumps({**kept, **measured}, indent=0, sort_keys=True))
        new.replace(KEPT)
