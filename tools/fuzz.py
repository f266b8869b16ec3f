#!/usr/bin/env python3
"""Runs kconf on Kconfigs, `.config` files and streams with bytes changed at random, and stops where it misbehaves.

    tools/fuzz.py --program PROGRAM [--seed S] [--from N] [--runs M] [--target TARGET].. [--tree FOLDER]..
                  [--limit SECONDS] [--memory BYTES] [--keep FOLDER] [--go-on]

It is not part of the gate. The texts that are changed are the cases of crates/kc_cases/data, random trees of
tools/random_kconfig.py and, with --tree, the Kconfigs of a tree on disk, each by itself. The seed and the number of a
run make it again exactly, in the same checkout and with the same --tree.

A run is wrong where the program is ended by a signal, or does not end in ten seconds, or with another status than 0, 1
and 2; where a line of standard error or of standard output has no form of docs/COMMANDS.md, a status does not go with
them, or a fault has a place that is not there; where a session has not one reply for each command; or where memory is
refused. Now and then one run is compared with others: the `.config` that is written, loaded again, gives no warning but
2, of a number whose value is none; the default file gives the same `.config`; and a session gives the same text as a
target. Each run of a target that reports is compared: the first error of `check` is that of `olddefconfig`, `merge`
writes what a session gives after the same loads, the fragment of `how` gives what is wanted, `genmake` has the values
of the `.config`, and `why` and `menu` have those of a session. The first run that is wrong is kept in a folder, which
is named, and the status is 1; with --go-on the others are run, too.

A program that tools/try_program.sh made reserves more addresses than the limit of memory: give it --memory -1, which
is none, and a --limit of some 60 seconds, as it is slow.
"""

import argparse
import os
import resource
import shlex
import shutil
import signal
import sys
import tempfile
import time
from collections import Counter
from dataclasses import dataclass, field
from functools import partial
from pathlib import Path
from typing import Dict, List, Optional, Set, Tuple

from fuzz_checks import problem_of
from fuzz_compared import problem_beside_others
from fuzz_inputs import all_inputs
from fuzz_plans import TARGETS, WITHOUT_CONFIG, Plan, plan_of
from fuzz_reports import Run

MEMORY_FOLDER = "/dev/shm"


# ------------------------------------------------------------------------------------------------ runs


@dataclass
class Usage:
    """The processor time and the memory of the most costly run, with their numbers."""

    seconds: Tuple[float, int] = (0.0, -1)
    memory: Tuple[int, int] = (0, -1)

    def add(self, number: int, used: "resource.struct_rusage") -> None:
        self.seconds = max(self.seconds, (used.ru_utime + used.ru_stime, number))
        self.memory = max(self.memory, (used.ru_maxrss, number))


@dataclass
class Runner:
    """Runs a program in a folder of its own, which is the working directory."""

    program: str
    folder: Path
    limit: float
    usage: Usage = field(default_factory=Usage)
    written: Set[str] = field(default_factory=set)
    child: int = 0
    is_hung: bool = False

    def __post_init__(self) -> None:
        (self.folder / "tree").mkdir()
        os.chdir(self.folder / "tree")
        self.streams = [str(self.folder / name) for name in ("stdin", "stdout", "stderr")]
        flags = (os.O_RDONLY, os.O_WRONLY | os.O_CREAT | os.O_TRUNC, os.O_WRONLY | os.O_CREAT | os.O_TRUNC)
        opened = enumerate(zip(self.streams, flags))
        self.actions = [(os.POSIX_SPAWN_OPEN, at, path, flag, 0o600) for at, (path, flag) in opened]
        signal.signal(signal.SIGALRM, self.end_child)

    def end_child(self, _number: int, _frame: object) -> None:
        """Ends a child that takes too long."""
        self.is_hung = True
        if self.child:
            os.kill(self.child, signal.SIGKILL)

    def write_tree(self, plan: Plan) -> None:
        """Writes the files of a plan, and removes those of the one before."""
        files = files_of(plan)
        for path in self.written - set(files):
            if os.path.lexists(path):  # else it was removed by another spelling of its path
                os.remove(path)
                remove_empty(os.path.dirname(path))
        for path, text in files.items():
            if "/" in path:
                os.makedirs(os.path.dirname(path), exist_ok=True)
            write_bytes(path, text)
        write_bytes(self.streams[0], plan.given.stream)
        self.written = set(files)

    def run(self, number: int, plan: Plan) -> Run:
        """Runs the program on what was written."""
        self.is_hung = False
        signal.setitimer(signal.ITIMER_REAL, self.limit)
        words = [self.program.encode(), *plan.words()]
        self.child = os.posix_spawn(self.program, words, {}, file_actions=self.actions)
        _, ended, used = os.wait4(self.child, 0)
        self.child = 0
        signal.setitimer(signal.ITIMER_REAL, 0)
        self.usage.add(number, used)
        texts = {path.encode(): text for path, text in (*plan.given.files, ("Kconfig", plan.given.kconfig))}
        config = plan.given.config if plan.has_config and plan.target not in WITHOUT_CONFIG else None
        return Run(
            plan.target,
            plan.prefix_bytes(),
            plan.is_explained,
            plan.given.words,
            texts,
            config,
            plan.given.stream,
            signal=os.WTERMSIG(ended) if os.WIFSIGNALED(ended) else 0,
            is_hung=self.is_hung,
            status=os.WEXITSTATUS(ended) if os.WIFEXITED(ended) else 0,
            output=read_bytes(self.streams[1]),
            errors=read_bytes(self.streams[2]),
            options=plan.options,
            operands=plan.operands(),
            fragments=dict(plan.fragment_files()),
        )

    def again(self, number: int, plan: Plan) -> Tuple[Run, Optional[str]]:
        """The run of a plan, and what is wrong with it by itself."""
        self.write_tree(plan)
        run = self.run(number, plan)
        return run, problem_of(run)


def files_of(plan: Plan) -> Dict[str, bytes]:
    """The files that a plan needs, by their paths."""
    given, fragments = plan.given, plan.fragment_files()
    files = {"Kconfig": given.kconfig, "config": given.config, **dict(given.files)}
    return {**files, **{path.decode(): text for path, text in fragments}}


def remove_empty(folder: str) -> None:
    """Removes a folder where it is empty, with those around it: another input may have a file of its name."""
    while folder and not os.listdir(folder):
        os.rmdir(folder)
        folder = os.path.dirname(folder)


def write_bytes(path: str, data: bytes) -> None:
    with open(path, "wb") as file:
        file.write(data)


def read_bytes(path: str) -> bytes:
    with open(path, "rb") as file:
        return file.read()


# ------------------------------------------------------------------------------------------------ what is kept


def keep(folder: Path, plan: Plan, run: Run, problem: str) -> None:
    """Keeps the files, the command line and what came of a run in a folder."""
    tree = folder / "tree"
    for path, text in files_of(plan).items():
        (tree / path).parent.mkdir(parents=True, exist_ok=True)
        (tree / path).write_bytes(text)
    words = " ".join(shlex.quote(os.fsdecode(word)) for word in plan.words())
    command = f"cd tree && kconf {words} < ../stdin\n"
    (folder / "command").write_bytes(os.fsencode(command))
    for name, data in (("stdin", plan.given.stream), ("stdout", run.output), ("stderr", run.errors)):
        (folder / name).write_bytes(data)
    (folder / "problem").write_text(problem + "\n")


def arguments_of(words: List[str]) -> argparse.Namespace:
    parser = argparse.ArgumentParser(description=(__doc__ or "").split("\n", maxsplit=1)[0])
    parser.add_argument("--program", required=True, type=lambda path: str(Path(path).resolve()))
    parser.add_argument("--seed", type=int, default=1)
    parser.add_argument("--from", type=int, default=0, dest="first", metavar="N")
    parser.add_argument("--runs", type=int, default=1_000, metavar="M")
    parser.add_argument("--target", action="append", choices=TARGETS)
    parser.add_argument("--tree", action="append", type=Path, default=[], metavar="FOLDER")
    parser.add_argument("--limit", type=float, default=10.0, metavar="SECONDS")
    parser.add_argument("--memory", type=int, default=2**31, metavar="BYTES")
    parser.add_argument("--keep", type=lambda path: Path(path).resolve(), default=None, metavar="FOLDER")
    parser.add_argument("--go-on", action="store_true")
    return parser.parse_args(words)


def fuzz(arguments: argparse.Namespace, work: Path) -> int:
    """Makes the runs, and gives the status."""
    pools = all_inputs(arguments.tree)
    targets = arguments.target or list(TARGETS)
    kept = arguments.keep or Path(tempfile.gettempdir(), "kconf-fuzz")
    runner = Runner(arguments.program, work, arguments.limit)
    statuses: "Counter[int]" = Counter()
    begin, wrong = time.monotonic(), 0
    for number in range(arguments.first, arguments.first + arguments.runs):
        plan = plan_of(arguments.seed, number, pools, targets)
        run, problem = runner.again(number, plan)
        problem = problem or problem_beside_others(partial(runner.again, number), plan, run)
        statuses[run.status] += 1
        if problem is None:
            continue
        wrong += 1
        folder = kept / f"{arguments.seed}-{number}"
        keep(folder, plan, run, problem)
        print(f"run {number} of seed {arguments.seed}: {problem}: kept in {folder}", flush=True)
        if not arguments.go_on:
            break
    report(arguments.seed, sum(statuses.values()), statuses, runner.usage, time.monotonic() - begin)
    return 1 if wrong else 0


def report(seed: int, runs: int, statuses: "Counter[int]", usage: Usage, seconds: float) -> None:
    by_status = ", ".join(f"status {status}: {count}" for status, count in sorted(statuses.items()))
    print(f"seed {seed}: {runs} runs, {runs / seconds:.0f} a second; {by_status}")
    print(f"longest run {usage.seconds[1]}: {usage.seconds[0]:.2f} s of processor time", end="; ")
    print(f"greatest run {usage.memory[1]}: {usage.memory[0]} KiB")


def main(words: List[str]) -> int:
    arguments = arguments_of(words)
    resource.setrlimit(resource.RLIMIT_AS, (arguments.memory, arguments.memory))
    resource.setrlimit(resource.RLIMIT_CORE, (0, 0))
    place = MEMORY_FOLDER if os.path.isdir(MEMORY_FOLDER) else None
    work = Path(tempfile.mkdtemp(prefix="kconf-fuzz-", dir=place))
    before = os.getcwd()
    try:
        return fuzz(arguments, work)
    finally:
        os.chdir(before)
        shutil.rmtree(work)


if __name__ == "__main__":
    sys.exit(main(sys.argv[1:]))
