#!/usr/bin/env python3
"""Compares `kconf why` with Kconfiglib: who selects and implies symbols, and what they depend on.

    python3 tools/compare_why.py PROGRAM FOLDER KCONFIG CONFIG VARIABLES [--symbols N] [--seed N]

FOLDER is an expanded tree (docs/TREES.md), in which KCONFIG is; VARIABLES is the file of its variables, one NAME=VALUE on
each line. For N symbols that are drawn at random (300, the same for the same seed) these have to be equal:

- how many `select` lines name the symbol, how many of them give it a value, and the symbols that have these lines, in order;
- the same of `imply` lines;
- the value of the symbol, and that of its direct dependencies: the greatest over its definitions of the least of the
  conditions that `why` shows. Of a member of a choice the dependencies are not compared, as Kconfiglib counts the choice
  among them.

It needs Kconfiglib (Debian's python3-kconfiglib), and prints what differs, and a count. The status is 1 where something
does.
"""

import argparse
import os
import random
import re
import shutil
import subprocess
import sys
import tempfile
from pathlib import Path

import kconfiglib

LETTERS = {0: "n", 1: "m", 2: "y"}
LEVELS = {letter: level for level, letter in LETTERS.items()}
HEAD = re.compile(r"^(\S+) = (.*) \((\w+), visible ([nmy]), user (.*)\)$")
COUNT = re.compile(
    r"^  (selected|implied) (?:([my]) by (\d+|none) of (\d+)|by none of (\d+))(?:, without effect on .*)?$"
)
REVERSE = re.compile(r"^    \S+:\d+: ([A-Za-z0-9_]+)=")
FACTOR = re.compile(r"^    ([nmy]) (\S+):(\d+): (\S+)")
DEFINITION = re.compile(r"^  (\S+):(\d+): (?:config|menuconfig) ")


def answers(program, folder, kconfig, config, variables, names):
    """The lines that `why` writes for each symbol, by its name."""
    command = [program, "why", "-C", folder, "--variables", variables, kconfig, config, *names, "--all"]
    output = subprocess.run(command, check=True, stdout=subprocess.PIPE, encoding="utf-8").stdout
    texts = {}
    for text in output.split("\n\n"):
        lines = text.rstrip("\n").split("\n")
        texts[HEAD.match(lines[0]).group(1)] = lines
    return texts


class Answer:
    """What the lines of `why` say of a symbol."""

    def __init__(self, lines, folder):
        self.value = HEAD.match(lines[0]).group(2)
        self.counts = {"selected": (0, 0), "implied": (0, 0)}
        self.names = {"selected": [], "implied": []}
        definitions = []
        part = None
        for line in lines[1:]:
            if count := COUNT.match(line):
                part = count.group(1)
                active = count.group(3) or "none"
                total = int(count.group(4) or count.group(5))
                self.counts[part] = (0 if active == "none" else int(active), total)
            elif DEFINITION.match(line):
                definitions.append(2)
                part = "definition"
            elif part in self.names and (reverse := REVERSE.match(line)):
                self.names[part].append(reverse.group(1))
            elif part == "definition" and (factor := FACTOR.match(line)):
                if is_dependency(folder, factor):
                    definitions[-1] = min(definitions[-1], LEVELS[factor.group(1)])
            elif not line.startswith("    "):
                part = None
        self.direct = LETTERS[max(definitions, default=0)]


def is_dependency(folder, factor):
    """Whether a condition is one of the dependencies, and not that of a prompt: the `if` of a prompt is in a line of its own
    definition, which begins with another word."""
    word = factor.group(4)
    if word == "depends":
        return True
    if word != "if":
        return False
    text = (Path(folder) / factor.group(2)).read_text("utf-8").split("\n")
    return text[int(factor.group(3)) - 1].split()[0] in ("if", "if(")


def readable_copy(folder, scratch):
    """A copy of a tree in which `modules` is `option modules`, as Kconfiglib 14 knows no other form."""
    copy = str(Path(scratch) / "tree")
    shutil.copytree(folder, copy)
    for path in Path(copy).rglob("Kconfig*"):
        if path.is_file():
            text = path.read_text("utf-8")
            path.write_text(re.sub(r"^([ \t]+)modules$", r"\1option modules", text, flags=re.M), "utf-8")
    return copy


def reverses(expression):
    """The terms of a reverse dependency: each is a symbol with conditions."""
    terms = kconfiglib.split_expr(expression, kconfiglib.OR)
    return [term for term in terms if term is not kconfiglib_no(expression)]


def kconfiglib_no(expression):
    """The constant n, which a symbol has as its reverse dependency where no line selects it."""
    return expression if not isinstance(expression, tuple) and expression.name == "n" else None


def wanted(symbol):
    """What Kconfiglib says of a symbol."""
    counts, names = {}, {}
    for part, expression in (("selected", symbol.rev_dep), ("implied", symbol.weak_rev_dep)):
        terms = reverses(expression)
        active = sum(kconfiglib.expr_value(term) > 0 for term in terms)
        counts[part] = (active, len(terms))
        names[part] = [kconfiglib.split_expr(term, kconfiglib.AND)[0].name for term in terms]
    value = symbol.str_value
    if symbol.orig_type == kconfiglib.STRING:
        value = '"' + value.replace("\\", "\\\\").replace('"', '\\"') + '"'
    direct = None if symbol.choice else LETTERS[kconfiglib.expr_value(symbol.direct_dep)]
    return value, direct, counts, names


def differences(symbol, answer):
    """What differs in the answer for a symbol, in words."""
    value, direct, counts, names = wanted(symbol)
    if answer.value != value:
        yield f"value {answer.value}, Kconfiglib {value}"
    if direct is not None and answer.direct != direct:
        yield f"direct dependencies {answer.direct}, Kconfiglib {direct}"
    for part in ("selected", "implied"):
        if answer.counts[part] != counts[part]:
            yield f"{part} {answer.counts[part]}, Kconfiglib {counts[part]}"
        elif counts[part][1] and answer.names[part] != names[part]:
            yield f"{part} by {answer.names[part]}, Kconfiglib {names[part]}"


def main():
    parser = argparse.ArgumentParser(description=__doc__, formatter_class=argparse.RawDescriptionHelpFormatter)
    for name in ("program", "folder", "kconfig", "config", "variables"):
        parser.add_argument(name)
    parser.add_argument("--symbols", type=int, default=300)
    parser.add_argument("--seed", type=int, default=1)
    arguments = parser.parse_args()
    program = str(Path(arguments.program).resolve())
    config = str(Path(arguments.config).resolve())
    variables = str(Path(arguments.variables).resolve())
    for line in Path(variables).read_text("utf-8").splitlines():
        name, _, value = line.partition("=")
        os.environ[name] = value
    with tempfile.TemporaryDirectory() as scratch:
        os.environ["srctree"] = readable_copy(arguments.folder, scratch)
        tree = kconfiglib.Kconfig(arguments.kconfig, warn=False)
    tree.load_config(config)
    symbols = [symbol for symbol in tree.unique_defined_syms if symbol.orig_type != kconfiglib.UNKNOWN]
    drawn = random.Random(arguments.seed).sample(symbols, min(arguments.symbols, len(symbols)))
    texts = answers(
        program, arguments.folder, arguments.kconfig, config, variables, [symbol.name for symbol in drawn]
    )
    different = 0
    for symbol in drawn:
        found = list(differences(symbol, Answer(texts[symbol.name], arguments.folder)))
        for words in found:
            print(f"{symbol.name}: {words}")
        different += bool(found)
    print(f"{len(drawn)} symbols, {different} differ")
    return 1 if different else 0


if __name__ == "__main__":
    sys.exit(main())
