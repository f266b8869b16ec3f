#!/usr/bin/env python3
"""Compares what `kconf how` answers with all that user values can give, on small random trees.

    tools/try_how.py PROGRAM [TREES [SEED]]

Of each of TREES trees of at most MOST_SYMBOLS symbols (100 without a number) all values of all symbols are tried, of a
string and a number the few of TEXTS and STRINGS, in one session of PROGRAM, and it is noted which values each symbol can
have. Then `how` is asked for each. What it finds has to hold when `merge` reads it, and no longer without any one of its
lines; only what no values give may be called impossible. A line is written for each that is not so, and for each value
that can be had and was not found. The last line counts; "found by other texts" is what none of the tried values gives.
The status is 1 where an answer was wrong, or where fewer than 99 in 100 were found.
"""

from __future__ import annotations

import itertools
import subprocess
import sys
import tempfile
from collections import Counter
from dataclasses import dataclass
from pathlib import Path

from random_kconfig import random_case

MOST_SYMBOLS = 6
MOST_COMBINATIONS = 4000
TEXTS = {"bool": ("n", "y"), "tristate": ("n", "m", "y"), "int": ("1", "5", "9"), "hex": ("0x1", "0x5", "0x1f")}
STRINGS = ("", "a", "1")


@dataclass
class Symbol:
    """A symbol as `list` has it."""

    name: str
    type: str
    is_member: bool

    def values(self) -> tuple[str, ...]:
        """What a fragment can give it."""
        if self.is_member:
            return ("y",)
        return TEXTS.get(self.type, STRINGS)

    def line(self, value: str) -> str:
        """The line of a `.config`."""
        if self.type == "string":
            escaped = value.replace("\\", "\\\\").replace('"', '\\"')
            return f'CONFIG_{self.name}="{escaped}"'
        return f"CONFIG_{self.name}={value}"


class Tree:
    """A tree in a folder, with a `.config` without values, and PROGRAM to ask."""

    def __init__(self, program: str, folder: Path, text: str) -> None:
        self.program = program
        self.kconfig = folder / "Kconfig"
        self.config = folder / ".config"
        self.fragment = folder / "fragment"
        self.kconfig.write_text(text, encoding="utf-8")
        self.config.write_text("", encoding="utf-8")

    def run(self, *words: str, commands: str = "") -> subprocess.CompletedProcess[str]:
        return subprocess.run(
            [self.program, *words], input=commands, capture_output=True, text=True, check=False, timeout=60
        )

    def session(self, commands: str) -> list[str]:
        """The lines of the replies."""
        return self.run("session", str(self.kconfig), str(self.config), commands=commands).stdout.split("\n")

    def symbols(self) -> list[Symbol]:
        lines = [line.split(" ") for line in self.session("list\n") if " type=" in line]
        names = {words[0] for words in lines}
        members = {name for name in names if self.is_member(name)}
        return [Symbol(words[0], words[1].removeprefix("type="), words[0] in members) for words in lines]

    def is_member(self, name: str) -> bool:
        """Whether a session refuses n, and takes y, as of a member of a choice."""
        replies = self.session(f"set {name} n\nset {name} y\n")
        return replies[0].startswith("refused") and replies[1] == "ok"

    def reached(self, symbols: list[Symbol]) -> set[tuple[str, str]] | None:
        """The values that symbols have for some user values; none where there are too many of these."""
        choices = [[None, *symbol.values()] for symbol in symbols]
        count = 1
        for values in choices:
            count *= len(values)
        if count > MOST_COMBINATIONS:
            return None
        commands = []
        for values in itertools.product(*choices):
            commands.append("reset")
            commands += [f"set {s.name} {v}" for s, v in zip(symbols, values) if v is not None]
            commands.append("list")
        return {found for line in self.session("\n".join(commands) + "\n") if (found := value_in(line))}

    def holds(self, lines: list[str], symbol: Symbol, value: str) -> bool:
        """Whether a symbol has a value, once lines are merged."""
        self.fragment.write_text("\n".join([*lines, ""]), encoding="utf-8")
        commands = f"merge {len(lines)}\n" + "".join(f"{line}\n" for line in lines) + f"show {symbol.name}\n"
        return any(value_in(line) == (symbol.name, value) for line in self.session(commands))


def value_in(line: str) -> tuple[str, str] | None:
    """The name and the value in the line of a symbol."""
    if " type=" not in line or " value=" not in line:
        return None
    name, rest = line.split(" ", 1)
    value = rest.split(" value=", 1)[1].rsplit(" vis=", 1)[0]
    if value.startswith('"'):
        value = value[1:-1].replace('\\"', '"').replace("\\\\", "\\")
    return name, value


def judged(tree: Tree, symbol: Symbol, value: str, can_be: bool) -> str:
    """What an answer is: a word that begins with `wrong` is a fault."""
    answer = tree.run("how", str(tree.kconfig), str(tree.config), symbol.line(value))
    lines = [line for line in answer.stdout.split("\n") if line]
    if answer.returncode != 0:
        if "impossible" in answer.stderr:
            return "wrong: impossible" if can_be else "impossible"
        return "missed" if can_be else "not found"
    if not tree.holds(lines, symbol, value):
        return "wrong: does not hold"
    if any(tree.holds(lines[:at] + lines[at + 1 :], symbol, value) for at in range(len(lines))):
        return "wrong: a line too many"
    return "found" if can_be else "found by other texts"


def main() -> int:
    if len(sys.argv) not in (2, 3, 4):
        print(__doc__, file=sys.stderr)
        return 2
    program = str(Path(sys.argv[1]).resolve())
    trees = int(sys.argv[2]) if len(sys.argv) > 2 else 100
    seed = int(sys.argv[3]) if len(sys.argv) > 3 else 1
    counts: Counter[str] = Counter()
    number = 0
    with tempfile.TemporaryDirectory() as folder:
        while counts["trees"] < trees:
            number += 1
            text = random_case(seed, number).tree
            tree = Tree(program, Path(folder), text)
            symbols = tree.symbols()
            if not 2 <= len(symbols) <= MOST_SYMBOLS:
                continue
            reached = tree.reached(symbols)
            if reached is None:
                continue
            counts["trees"] += 1
            for symbol in symbols:
                for value in dict.fromkeys([*symbol.values(), "n"] if symbol.is_member else symbol.values()):
                    word = judged(tree, symbol, value, (symbol.name, value) in reached)
                    counts[word] += 1
                    if word == "missed" or word.startswith("wrong"):
                        print(f"tree {number} of seed {seed}: {symbol.line(value)}: {word}")
    print(", ".join(f"{word}: {count}" for word, count in sorted(counts.items())))
    is_wrong = any(word.startswith("wrong") for word in counts)
    return 1 if is_wrong or counts["missed"] * 99 > counts["found"] else 0


if __name__ == "__main__":
    sys.exit(main())
