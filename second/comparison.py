"""What `compare` and `planted` share: the weeks, the questions, and two answers side by side."""

import importlib.machinery
import importlib.util
import itertools
import pathlib
import sys
from typing import Callable, NamedTuple

import weeks

ROOT = pathlib.Path(__file__).resolve().parent.parent
sys.path[:0] = [str(ROOT / "examples"), str(ROOT / "tests" / "files")]

import limits
import reading
import running

PAIRS = list(itertools.product((0, 1), (0, 1)))     # every host with every order
ROOM = 100_000          # for an office answer; more than any is long
ENOUGH = 40_000         # bytes of an input without end; more than decide


class Question(NamedTuple):
    """Something to ask of two Blockbooks about a week; each gives bytes."""
    name: str
    ours: Callable
    theirs: Callable


def office(implementation, host, order):
    """The office answer of the second implementation as a function of the week."""
    return lambda week: implementation.office(week, ROOM, host, order)[1]


def side_by_side(cases, questions):
    """Name, week, question and both answers, for every case and question."""
    for name, week in cases:
        for question in questions:
            yield name, week, question, question.ours(week), question.theirs(week)


# -- the weeks

def examples():
    for path in sorted((ROOT / "examples").glob("*.week")):
        yield f"examples/{path.name}", path.read_bytes()


def files_by_chance():
    """Those that tests/files/run makes, which is a script without an ending and has to be loaded by hand."""
    loader = importlib.machinery.SourceFileLoader("files_run", str(ROOT / "tests" / "files" / "run"))
    script = importlib.util.module_from_spec(importlib.util.spec_from_loader("files_run", loader))
    loader.exec_module(script)
    return script.any_files()


def file_tests():
    for table in (reading, limits, running):
        for name, file, _ in table.CASES:
            yield f"{table.__name__}: {name}", file
    for name, beginning, again, _ in limits.ENDLESS:
        yield f"limits: {name}", beginning + again * (ENOUGH // len(again) + 1)
    for name, file in files_by_chance():
        yield f"any bytes: {name}", file


def all_weeks(seed, count):
    """Names and bytes of the examples, the file tests, and so many weeks by chance."""
    return itertools.chain(examples(), file_tests(), weeks.weeks(seed, count))
