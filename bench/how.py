#!/usr/bin/env python3
"""What `kconf how` costs and finds, beside `kconf olddefconfig` on the same tree and .config.

    bench/how.py PROGRAM TREE CONFIG [--count N] [--seed N] [NAME=VALUE..]

TREE is a folder with a Kconfig of a kernel, as tools/expand_kconfig.py writes it, with the words NAME=VALUE that it
printed. Of the symbols with a prompt that are n, N are drawn (200 without a number, by seed 1), and `how` is asked for y
of each. It compares user and system time with the median of eleven runs of `olddefconfig` (wanted: at most 1.4 times at
the median, at most 3 times at all), and counts lines (wanted: at most 8 at the 95th percentile). In one session of
PROGRAM each answer is merged, whole and without each of its lines: the symbol has to be y, and then not. It counts what
is called impossible, too. The status is 0 where all is kept, else 1.
"""

from __future__ import annotations

import argparse
import json
import os
import random
import statistics
import subprocess
import sys
from dataclasses import dataclass
from pathlib import Path

RUNS = 11
MOST_AT_MEDIAN = 1.4
MOST = 3.0
MOST_LINES = 8


@dataclass
class Answer:
    """What `how` answered for a symbol: its lines, none where it found nothing, its last words, and the time in seconds."""

    name: str
    lines: list[str]
    words: str
    seconds: float


class Program:
    """PROGRAM with a tree and a .config."""

    def __init__(self, program: str, tree: str, config: str, words: list[str]) -> None:
        self.program = str(Path(program).resolve())
        self.tree = tree
        self.config = str(Path(config).resolve())
        self.words = words

    def ran(self, target: str, *words: str, commands: str = "") -> subprocess.CompletedProcess[str]:
        """A run of a target."""
        command = [self.program, target, "Kconfig", self.config, *words, *self.words]
        return subprocess.run(command, cwd=self.tree, input=commands, capture_output=True, text=True, check=False)

    def run(self, target: str, *words: str, commands: str = "") -> str:
        """What a target writes; nothing where it fails."""
        return self.ran(target, *words, commands=commands).stdout

    def timed(self, target: str, *words: str) -> tuple[subprocess.CompletedProcess[str], float]:
        """A run of a target, and its user and system time in seconds."""
        before = os.times()
        ran = self.ran(target, *words)
        after = os.times()
        return ran, after.children_user + after.children_system - before.children_user - before.children_system

    def prompts_that_are_n(self) -> list[str]:
        """The names of the bools and tristates with a prompt whose value is n."""
        entries = [json.loads(line) for line in self.run("menu").splitlines()]
        found = {
            entry["name"]
            for entry in entries
            if entry.get("type") in ("bool", "tristate") and entry.get("value") == "n" and entry.get("prompt")
        }
        return sorted(found)

    def values_after(self, fragments: list[tuple[str, list[str]]]) -> list[bool]:
        """Whether the symbol of a name is y, for each name and fragment, once the fragment is merged into the .config."""
        config = Path(self.config).read_text(encoding="utf-8").splitlines()
        commands = []
        for name, lines in fragments:
            commands += [f"load {len(config)}", *config, f"merge {len(lines)}", *lines, f"show {name}"]
        replies = iter(self.run("session", commands="\n".join([*commands, ""])).splitlines())
        return [
            " value=y " in next(reply for reply in replies if reply.startswith(f"{name} type=")) for name, _ in fragments
        ]


def without_each(lines: list[str]) -> list[list[str]]:
    """Some lines, and these without each of them."""
    return [lines, *(lines[:at] + lines[at + 1 :] for at in range(len(lines)))]


def faults_of(program: Program, answers: list[Answer]) -> list[str]:
    """A line for each answer that does not hold, or has a line too many."""
    fragments = [(answer.name, lines) for answer in answers for lines in without_each(answer.lines)]
    values = iter(program.values_after(fragments))
    faults = []
    for answer in answers:
        holds = next(values)
        if not holds:
            faults.append(f"{answer.name}: does not hold")
        for line in answer.lines:
            if next(values):
                faults.append(f"{answer.name}: {line} is not needed")
    return faults


def shares(values: list[float]) -> str:
    """The median, the 95th percentile and the most."""
    values = sorted(values)
    return f"{statistics.median(values):.2f}, {values[len(values) * 95 // 100]:.2f}, {values[-1]:.2f}"


def main() -> int:
    parser = argparse.ArgumentParser(description=__doc__, formatter_class=argparse.RawDescriptionHelpFormatter)
    parser.add_argument("program")
    parser.add_argument("tree")
    parser.add_argument("config")
    parser.add_argument("--count", type=int, default=200)
    parser.add_argument("--seed", type=int, default=1)
    parser.add_argument("words", nargs="*", metavar="NAME=VALUE")
    arguments = parser.parse_intermixed_args()
    program = Program(arguments.program, arguments.tree, arguments.config, arguments.words)
    names = program.prompts_that_are_n()
    names = random.Random(arguments.seed).sample(names, min(arguments.count, len(names)))
    base = statistics.median(program.timed("olddefconfig")[1] for _ in range(RUNS))
    answers = []
    for name in names:
        ran, seconds = program.timed("how", f"CONFIG_{name}=y")
        words = ran.stderr.splitlines()[-1] if ran.stderr else ""
        answers.append(Answer(name, ran.stdout.splitlines(), words, seconds))
        print(f"{name}: {len(answers[-1].lines)} lines, {seconds / base:.2f} of olddefconfig", flush=True)
    found = [answer for answer in answers if answer.lines]
    faults = faults_of(program, found)
    for fault in faults:
        print(fault)
    ratios = [answer.seconds / base for answer in answers]
    lines = [float(len(answer.lines)) for answer in found]
    never = sum(answer.words.startswith("impossible: ") for answer in answers)
    print(f"{len(answers)} asked, {len(found)} found, {never} impossible, {len(faults)} faults")
    print(f"olddefconfig: {base * 1000:.1f} ms")
    print(f"time, of that of olddefconfig, median, 95th percentile and most: {shares(ratios)}")
    print(f"lines: {shares(lines)}")
    is_kept = statistics.median(ratios) <= MOST_AT_MEDIAN and max(ratios) <= MOST
    is_short = sorted(lines)[len(lines) * 95 // 100] <= MOST_LINES
    return 0 if is_kept and is_short and not faults else 1


if __name__ == "__main__":
    sys.exit(main())
