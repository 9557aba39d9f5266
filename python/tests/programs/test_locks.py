"""Tests of locks of files that two commands write."""

import os
from unittest import mock

import pytest
from ward import files  # noqa: F401

from inrc2pb.programs import locks
from inrc2pb.week.faults import ProgramFault


@pytest.fixture
def taken(monkeypatch):
    """Another process has each lock twice, and then no more."""
    take = mock.Mock(side_effect=[None, None, os.open(os.devnull, os.O_RDONLY)])
    monkeypatch.setattr(locks, "_try_to_take", take)
    monkeypatch.setattr(locks, "PAUSE", 0.0)
    return take


def test_who_waits_says_so_once(tmp_path, taken):
    said = []
    target = tmp_path / "roster.txt"
    with locks.locked([target], True, said.append):
        assert said == [f"another search writes {target}: this one waits until it has ended"]
    assert taken.call_count == 3


def test_who_does_not_wait_is_refused(tmp_path, taken):
    said = []
    with pytest.raises(ProgramFault, match="wait until it has ended"):
        with locks.locked([tmp_path / "roster.txt"], False, said.append):
            pass
    assert (said, taken.call_count) == ([], 1)
