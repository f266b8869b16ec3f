"""What the fuzzer checks of the target `how`. The forms are those of docs/COMMANDS.md, "Wanted values"."""

import re
from typing import Iterator, List

from fuzz_reports import EXCHANGED, LOST, PLACED, UNUSABLE_IN_MERGE, Run, line_problems, lines_of

OTHERS = rb"(?:; (?:1 other value changes|\d+ other values change)(?:, 1 is lower|, \d+ are lower)?)?"
COUNTS = re.compile(rb"(\d+) wanted(?:, (\d+) kept)?: (\d+) lines?" + OTHERS + rb"(?:; (\d+) lines? of (.*) lost)?")
CHANGE = re.compile(rb"\w+: .* to .*(?:, wanted|, kept|, needed for \w+=.*|, needed to keep \w+=.*)", re.DOTALL)
DEFINITION = re.compile(rb"  .+", re.DOTALL)
NOT_FOUND = re.compile(rb"nothing was found that gives what is wanted|gave up: .*|impossible: no user values give \w+=.*", re.DOTALL)
MISSED = re.compile(rb"\w+: wanted .*, is .*: .+", re.DOTALL)
FRAGMENT_LINE = re.compile(rb"# \w+ is not set|\w+=.*", re.DOTALL)


def report_of(run: Run) -> List[bytes]:
    """The lines of standard error without what is asked of a Kconfig without a symbol."""
    return [line for line in lines_of(run.errors) if not EXCHANGED.fullmatch(line)]


def is_how_report(run: Run) -> bool:
    """Whether standard error has the report of `how`, and not a fault."""
    lines = report_of(run)
    if run.target != "how" or not lines:
        return False
    ends = (COUNTS, NOT_FOUND)
    return any(end.fullmatch(lines[-1]) for end in ends) or all(is_unusable(run, line) for line in lines)


def is_unusable(run: Run, line: bytes) -> bool:
    """Whether a line is on one of a fragment, or a word of the command line, that can't be used."""
    placed = PLACED.fullmatch(line)
    return bool(placed and placed[1] in (*run.operands, b"WANTED") and UNUSABLE_IN_MERGE.fullmatch(placed[3]))


def how_problems(run: Run) -> Iterator[str]:
    """What is wrong with the report of `how`: the forms and the order of its lines, its numbers, and the status."""
    lines = report_of(run)
    counts = COUNTS.fullmatch(lines[-1])
    if not counts:
        yield from failure_problems(run, lines)
        return
    lost, kept, listed = (int(counts[at] or 0) for at in (4, 2, 3))
    if run.status != (1 if lost and b"--strict" in run.options else 0):
        yield f"status {run.status}, and the numbers {lines[-1]!r}"
    if kept and b"--keep" not in run.options:
        yield "values that are kept without --keep"
    if any(b"\n" in word for word in run.words):
        return
    wrong = [line for line in lines_of(run.output) if not FRAGMENT_LINE.fullmatch(line)]
    if wrong or len(lines_of(run.output)) != listed:
        yield f"a fragment of other lines than the numbers say, or of another form: {lines[-1]!r}"
    yield from change_problems(run, lines[:-1], lost, listed)


def change_problems(run: Run, lines: List[bytes], lost: int, listed: int) -> Iterator[str]:
    """What is wrong with the lines before the numbers: first come those of CONFIG that are lost, then a line for each of
    the fragment, with definitions only where they are asked for."""
    for line in lines[:lost]:
        placed = PLACED.fullmatch(line)
        if not placed or placed[1] != b"config" or not LOST.fullmatch(placed[3]):
            yield f"a lost line that has no known form: {line!r}"
            return
        yield from line_problems(run, placed[1], int(placed[2]))
    changes = [line for line in lines[lost:] if not (run.is_explained and DEFINITION.fullmatch(line))]
    if len(changes) != listed or not all(map(CHANGE.fullmatch, changes)):
        yield f"{len(changes)} changes of {listed} lines, or one that has no known form"


def failure_problems(run: Run, lines: List[bytes]) -> Iterator[str]:
    """What is wrong with the report where nothing was found, or a line can't be used."""
    if run.status != 1 or run.output:
        yield "a fragment, or status 0, where nothing was found"
    if NOT_FOUND.fullmatch(lines[-1]) and not all(map(MISSED.fullmatch, lines[:-1])):
        yield "a line about a wanted value that has no known form"
