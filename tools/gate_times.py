#!/usr/bin/env python3
"""Runs `rt ci`, and writes what each crate took, as the table of docs/PERFORMANCE.md has it.

    tools/gate_times.py [--to FILE] [--anew] [NAME..]
    tools/gate_times.py [--to FILE] --of NUMBER

The other words are those of `rt ci`, whose output is passed through and whose status is the status. With --of it starts
nothing, and looks at the process of that number until it ends: an `rt ci` or a `.ci/run` that is running. What `rt ci`
writes has no times, so no table can be made of a log. What an earlier run has kept takes no time, so the gate is
measured whole with --anew. The table has a row for each crate that took time, and one for all; it goes to standard
output after that of `rt ci`, or to FILE, where it is also written each minute, so that a run that is stopped has one.

Each second the processes below `rt ci` are looked at. By the words and the folder of one that is given a crate it is a
proof, a proof with tests, the proof that the edits begin with, or an edit that is tried; one in a folder of `rt ci` for
runs is a program or a test. What such a process has started counts as its own. A cell is the greatest user and system
time that was seen, in minutes; what a process takes after it was last seen is in no cell. A line after the table has
what the system counted, or with --of the sum of what was seen, and the number of processors.
"""

import argparse
import os
import re
import resource
import subprocess
import sys
import time
from collections import defaultdict
from dataclasses import dataclass, field
from pathlib import Path
from typing import Callable, Dict, Iterable, Iterator, List, Optional, Tuple

from check_rules import ROOT, crates_of, edit_count, function_count, text_of

TICKS = os.sysconf("SC_CLK_TCK")
SECONDS_BETWEEN_LOOKS = 1.0
SECONDS_BETWEEN_TABLES = 60.0

# The kinds of work, with the heads of their columns.
KINDS = {"proof": "Proof", "tests": "With tests", "first": "Before edits", "edits": "Edits", "run": "Runs"}


# ------------------------------------------------------------------------------------------------ processes


@dataclass(frozen=True)
class Process:
    """A process, with its processor time and that of the ended ones that it waited for, in seconds."""

    number: int
    parent: int
    begin: int
    seconds: float


@dataclass(frozen=True)
class Work:
    """What a process does: one of KINDS, for a crate."""

    crate: str
    kind: str


def process_of(stat: str) -> Process:
    """The process of a text of /proc/N/stat."""
    number, _, rest = stat.partition(" (")
    fields = rest.rpartition(") ")[2].split()
    ticks = sum(int(field) for field in fields[11:15])
    return Process(int(number), int(fields[1]), int(fields[19]), ticks / TICKS)


def all_processes() -> Iterator[Process]:
    for path in Path("/proc").glob("[0-9]*/stat"):
        try:
            yield process_of(path.read_text(errors="replace"))
        except OSError:
            pass  # it has ended


def work_of(words: List[str], folder: str) -> Optional[Work]:
    """What a process does, by its words and the folder that it works in."""
    for word in words:
        run = re.search(r"/rt-run-[^/]+/bin/(\w+?)(?:_tests)?(?:\.by-rattle)?$", word)
        if run:
            return Work(run[1], "run")
    if "--crate-name" not in words[:-1]:
        return None
    crate = words[words.index("--crate-name") + 1]
    if re.search(r"/rt-edit-[^/]+$", folder):
        is_first = any(re.search(r"/rt-edits-[^/]+/seed$", word) for word in words)
        return Work(crate, "first" if is_first else "edits")
    return Work(crate, "tests" if "--test" in words else "proof")


def seen_work(process: Process) -> Optional[Work]:
    place = Path("/proc", str(process.number))
    try:
        words = (place / "cmdline").read_text(errors="replace").split("\0")
        return work_of(words, os.readlink(place / "cwd"))
    except OSError:
        return None


# ------------------------------------------------------------------------------------------------ what was seen


@dataclass
class Seen:
    """What was seen of the work below a process."""

    works: Dict[Tuple[int, int], Work] = field(default_factory=dict)
    seconds: Dict[Tuple[int, int], float] = field(default_factory=dict)
    times: Dict[str, Tuple[float, float]] = field(default_factory=dict)

    def look(self, top: int, processes: Iterable[Process], now: float) -> None:
        """Adds what is seen now of the processes below the one of this number."""
        below: Dict[int, List[Process]] = defaultdict(list)
        for process in processes:
            below[process.parent].append(process)
        left = list(below[top])
        while left:
            process = left.pop()
            key = (process.number, process.begin)
            work = self.works.get(key) or seen_work(process)
            if work is None:
                left += below[process.number]
            else:
                self.add(key, work, seconds_of(process, below), now)

    def add(self, key: Tuple[int, int], work: Work, seconds: float, now: float) -> None:
        self.works[key] = work
        self.seconds[key] = max(seconds, self.seconds.get(key, 0.0))
        begin, _ = self.times.get(work.crate, (now, now))
        self.times[work.crate] = (begin, now)

    def minutes(self, crate: str, kind: str) -> float:
        work = Work(crate, kind)
        return sum(self.seconds[key] for key, each in self.works.items() if each == work) / 60

    def all_minutes(self) -> float:
        return sum(self.seconds.values()) / 60


def seconds_of(process: Process, below: Dict[int, List[Process]]) -> float:
    """The processor time of a process and of all below it."""
    return process.seconds + sum(seconds_of(each, below) for each in below[process.number])


# ------------------------------------------------------------------------------------------------ the table


def shown(minutes: float) -> str:
    return f"{minutes:.1f}" if minutes >= 0.05 else ""


def row_of(cells: Iterable[str]) -> str:
    return "|" + "".join(f" {cell} |" if cell else " |" for cell in cells)


def table(seen: Seen, crates: List[str], elapsed: float, counted: str) -> Iterator[str]:
    """The lines of the table: the crates that were seen, and all of them. A last line has what was counted."""
    yield row_of(["Crate", "Functions", *KINDS.values(), "From begin to end", "Edits that the gate tries"])
    yield "|" + "---|" * (len(KINDS) + 4)
    for crate in crates:
        if crate in seen.times:
            begin, end = seen.times[crate]
            cells = [shown(seen.minutes(crate, kind)) for kind in KINDS]
            edits = edit_count(crate)
            yield row_of([crate, str(function_count(crate)), *cells, shown((end - begin) / 60), str(edits or "")])
    sums = [shown(sum(seen.minutes(crate, kind) for crate in crates)) for kind in KINDS]
    yield row_of(["all", "", *sums, shown(elapsed), ""])
    yield ""
    yield f"{counted}, on {len(os.sched_getaffinity(0))} processors."


@dataclass
class Report:
    """Where the table goes: a file, or standard output at the end."""

    to: Optional[Path]
    begin: float = field(default_factory=time.monotonic)

    def write(self, seen: Seen, counted: str, is_end: bool) -> None:
        crates = crates_of(text_of(ROOT / "crates.txt"))
        lines = table(seen, crates, (time.monotonic() - self.begin) / 60, counted)
        text = "".join(f"{line}\n" for line in lines)
        if self.to:
            self.to.write_text(text, encoding="utf-8")
        elif is_end:
            print(text, end="")


def counted_by_sight(seen: Seen) -> str:
    return f"Seen were {seen.all_minutes():.1f} minutes of user and system time"


def watch(top: int, is_running: Callable[[], bool], report: Report) -> Seen:
    """Looks at what is below a process until it ends, and writes the table each minute."""
    seen, written = Seen(), time.monotonic()
    while is_running():
        seen.look(top, all_processes(), time.monotonic())
        if time.monotonic() - written >= SECONDS_BETWEEN_TABLES:
            report.write(seen, counted_by_sight(seen), is_end=False)
            written = time.monotonic()
        time.sleep(SECONDS_BETWEEN_LOOKS)
    return seen


def run_gate(words: List[str], report: Report) -> int:
    """Runs `rt ci` with these words, and gives its status."""
    with subprocess.Popen(["rt", "ci", *words], cwd=ROOT) as gate:
        seen = watch(gate.pid, lambda: gate.poll() is None, report)
    used = resource.getrusage(resource.RUSAGE_CHILDREN)
    minutes = (used.ru_utime + used.ru_stime) / 60
    report.write(seen, f"The system counted {minutes:.1f} minutes of user and system time", is_end=True)
    return gate.returncode


def is_running(number: int) -> bool:
    return any(process.number == number for process in all_processes())


def main() -> int:
    parser = argparse.ArgumentParser(description="Runs `rt ci`, and writes what each crate took.")
    parser.add_argument("--to", type=Path, metavar="FILE", help="write the table to FILE")
    parser.add_argument("--of", type=int, metavar="NUMBER", help="look at a process that is running, and start nothing")
    options, words = parser.parse_known_args()
    report = Report(options.to)
    if options.of is None:
        return run_gate(words, report)
    seen = watch(options.of, lambda: is_running(options.of), report)
    report.write(seen, counted_by_sight(seen), is_end=True)
    return 0


if __name__ == "__main__":
    sys.exit(main())
