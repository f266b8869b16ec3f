#!/usr/bin/env python3
"""Runs the built program with its Nth request of memory refused, for each N until nothing is refused.

    tools/refuse_program_memory.py --program PROGRAM [--target TARGET]..

It is not part of the gate, and needs `cc`: tools/refuse_allocation.c is built into a temporary folder and loaded before the C
library. Each target is run twice for each N: with the Nth request alone refused, and with all from the Nth on.

A run is right where its status, its standard output and its standard error are those without refusal; or where the
status is 1, standard error is `kconf: memory` and nothing else, and standard output is empty or the whole text. A
session may also reply `refused 7`: then its other replies have to be those to the other commands alone. The status is 0
where all are right, else 1. Printed is for each target how many requests were refused, and what came of them.
"""

import argparse
import os
import re
import subprocess
import sys
import tempfile
from collections import Counter
from dataclasses import dataclass
from pathlib import Path
from typing import Dict, List, Tuple

SOURCE = Path(__file__).resolve().parent / "refuse_allocation.c"
MOST = 100_000
NO_MEMORY = b"kconf: memory\n"

KCONFIG = """\
mainmenu "a \\"title\\" of $(ARCH)"
PARTS := parts
NAMES = $(ARCH) more
NAMES += and more
config MODULES
\tbool "modules"
\tdefault y
\tmodules
menu "Drivers of $(NAMES)"
\tdepends on MODULES || !MODULES
\tvisible if y
source "$(PARTS)/net"
endmenu
source "parts/choice"
source "parts/net"
config TEXT
\tstring "text"
\tdefault "a \\\\ \\"b\\" $(NAMES)" if NET
\thelp
\t  A help text,

\t  of two parts.
config NUMBER
\tint "number"
\trange 1 LEAST if NET
\tdefault 7
config LEAST
\tint
\tdefault 9
config ADDRESS
\thex "address"
\tdefault 0x1000
comment "note"
\tdepends on NET && (TEXT = "a" || NUMBER < 5)
"""
NET = """\
menuconfig NET
\ttristate "Network"
\tdefault m if MODULES
\tselect CRC if TEXT != ""
\timply HASH
config CRC
\ttristate
config HASH
\tbool "hash" if NET
\tdepends on !CRC || NET
"""
CHOICE = """\
choice
\tprompt "Speed"
\tdefault SLOW
\toptional
config FAST
\tbool "fast"
config SLOW
\tbool "slow"
endchoice
"""
CONFIG = """\
# CONFIG_HASH is not set
CONFIG_NET=y
CONFIG_FAST=y
CONFIG_TEXT="a \\"word\\""
CONFIG_NUMBER=8
CONFIG_ADDRESS=0xff
"""
WARNED = """\
CONFIG_NOWHERE=y
CONFIG_NUMBER=x
CONFIG_TEXT=open
what
"""
FILES = {
    "Kconfig": KCONFIG,
    "parts/net": NET,
    "parts/choice": CHOICE,
    "config": CONFIG,
    "warned": CONFIG + WARNED,
    "loop": 'config A\n\tbool "a"\n\tdepends on B\nconfig B\n\tbool "b"\n\tdepends on A\n',
    "choices": 'choice\nconfig A\n\tbool "a"\nendchoice\n',
    "untyped": 'config A\n\tprompt "a"\n',
    "missing": 'source "parts/choice"\nsource "parts/none"\n',
}
COMMANDS = """\
show NET
set NET y
set TEXT a longer text with "quotes" and \\ in it
show TEXT
list
choices
set SLOW y
config
load 3
CONFIG_NET=m
CONFIG_TEXT="loaded"
CONFIG_NOWHERE=y
header
merge 2
CONFIG_NUMBER=3
# CONFIG_HASH is not set
defconfig
new
unset TEXT
allno
config
allyes
set ADDRESS 0xabc
defconfig
reset
frob
set NUMBER x
list
"""
# A name for each command line, and its words.
TARGETS: Dict[str, List[str]] = {
    "olddefconfig": ["olddefconfig", "Kconfig", "config", "ARCH=x86"],
    "olddefconfig, with warnings": ["olddefconfig", "Kconfig", "warned", "ARCH=x86", "--explain"],
    "savedefconfig": ["savedefconfig", "Kconfig", "config", "ARCH=x86"],
    "listnewconfig": ["listnewconfig", "Kconfig", "config", "ARCH=x86"],
    "genheader": ["genheader", "Kconfig", "config", "ARCH=x86", "--prefix", "P_"],
    "allnoconfig": ["allnoconfig", "Kconfig", "ARCH=x86"],
    "allyesconfig": ["allyesconfig", "Kconfig", "ARCH=x86"],
    "session": ["session", "Kconfig", "config", "ARCH=x86"],
    "session, with warnings": ["session", "Kconfig", "warned", "ARCH=x86"],
    "a loop": ["olddefconfig", "loop", "-", "--explain"],
    "a choice at fault": ["olddefconfig", "choices", "-"],
    "a symbol at fault": ["olddefconfig", "untyped", "-"],
    "a missing file": ["olddefconfig", "missing", "-"],
    "a missing CONFIG": ["olddefconfig", "Kconfig", "none"],
    "help": ["olddefconfig", "--help"],
    "a missing word": ["olddefconfig"],
    "a malformed prefix": ["olddefconfig", "Kconfig", "-", "--prefix", "a-b"],
    "a malformed variable": ["olddefconfig", "Kconfig", "-", "A-"],
}

EXPLAINED = re.compile(rb"(kconf: (?:.*: )?(?:warning \d|K\d\d(?: \w+)?)): .*")

Outcome = Tuple[int, bytes, bytes]


@dataclass
class Program:
    """The program, in a folder with its files, and the library that refuses memory."""

    path: str
    folder: Path
    library: Path

    def run(self, words: List[str], stream: bytes, at: int = 0, is_all: bool = False) -> Outcome:
        """The status, standard output and standard error, with a request refused where `at` is not 0."""
        environment = {}
        if at:
            environment = {"LD_PRELOAD": str(self.library), "REFUSE_AT": str(at), "REFUSE_MARK": str(self.mark())}
            environment.update({"REFUSE_ALL": "1"} if is_all else {})
        done = subprocess.run(
            [self.path, *words],
            cwd=self.folder / "tree",
            env=environment,
            input=stream,
            capture_output=True,
            timeout=20,
        )
        return done.returncode, done.stdout, done.stderr

    def mark(self) -> Path:
        return self.folder / "mark"

    def was_refused(self) -> bool:
        """Whether a request was refused since this was asked last."""
        if not self.mark().exists():
            return False
        self.mark().unlink()
        return True


def without_words(errors: bytes) -> bytes:
    """Lines of standard error without what --explain adds: it says less where it is refused memory."""
    lines = [line for line in errors.splitlines(keepends=True) if not line.startswith(b"  ")]
    return b"".join(EXPLAINED.sub(rb"\1", line) for line in lines)


def verdict(program: Program, words: List[str], stream: bytes, right: Outcome, found: Outcome) -> str:
    """What came of a refused request, in words; those of a wrong run begin with WRONG."""
    if found == right:
        return "the right answer"
    status, output, errors = found
    if "--explain" in words and (status, output, without_words(errors)) == (*right[:2], without_words(right[2])):
        return "the right answer, with fewer words"
    if status == 1 and errors == NO_MEMORY:
        return verdict_of_output(right, output)
    warnings = without_words(errors[: -len(NO_MEMORY)])
    if status == 1 and errors.endswith(NO_MEMORY) and without_words(right[2]).startswith(warnings):
        return "memory, after warnings; " + verdict_of_output(right, output)
    if words[0] == "session" and status == 0 and errors == right[2]:
        return verdict_of_replies(program, words, stream, output)
    return f"WRONG: status {status}, {len(output)} bytes of output, {errors[:200]!r}"


def verdict_of_output(right: Outcome, output: bytes) -> str:
    if not output:
        return "memory, and no output"
    return "memory, and the whole output" if output == right[1] else "WRONG: memory, and a part of the output"


def verdict_of_replies(program: Program, words: List[str], stream: bytes, output: bytes) -> str:
    """Whether the replies are those to the commands that were not refused memory."""
    replies, commands = replies_of(output), commands_of(stream)
    if len(replies) != len(commands):
        return "WRONG: not one reply for each command"
    kept = [at for at, reply in enumerate(replies) if reply != b"refused 7\n"]
    _, wanted, _ = program.run(words, b"".join(commands[at] for at in kept))
    if wanted != b"".join(replies[at] for at in kept):
        return "WRONG: other replies beside refused 7"
    return f"refused 7 ({len(replies) - len(kept)})" if len(replies) - len(kept) == 1 else "refused 7, more than once"


def replies_of(output: bytes) -> List[bytes]:
    replies, text = [], b""
    for line in output.splitlines(keepends=True):
        text += line
        if line == b"ok\n" or line.startswith(b"refused "):
            replies.append(text)
            text = b""
    return replies + ([text] if text else [])


def commands_of(stream: bytes) -> List[bytes]:
    """The commands of a stream, those of loads with their bodies."""
    lines, commands = stream.splitlines(keepends=True), []
    while lines:
        words = lines[0].split()
        count = 1 + (int(words[1]) if words[0] in (b"load", b"merge") else 0)
        commands.append(b"".join(lines[:count]))
        lines = lines[count:]
    return commands


def wanted_status(target: str) -> int:
    """The status of a command line where no memory is refused."""
    if target in ("a missing word", "a malformed prefix", "a malformed variable"):
        return 2
    return 1 if target.startswith("a ") else 0


def refuse_each(program: Program, target: str, stream: bytes, is_all: bool) -> "Counter[str]":
    """What came of refusing each request of a command line in turn."""
    words = TARGETS[target]
    right = program.run(words, stream)
    found: "Counter[str]" = Counter()
    if right[0] != wanted_status(target):
        found[f"WRONG: status {right[0]}, with nothing refused"] += 1
    for at in range(1, MOST):
        outcome = program.run(words, stream, at, is_all)
        if not program.was_refused():
            if outcome != right:
                found["WRONG: another answer, with nothing refused"] += 1
            return found
        said = verdict(program, words, stream, right, outcome)
        if said.startswith("WRONG") and found[said] == 0:
            print(f"request {at} of {' '.join(words)}: {said}")
        found[said] += 1
    found[f"WRONG: more than {MOST} requests"] += 1
    return found


def build(folder: Path) -> Path:
    library = folder / "refuse_allocation.so"
    subprocess.run(["cc", "-O2", "-shared", "-fPIC", "-o", library, SOURCE], check=True)
    return library


def main(words: List[str]) -> int:
    parser = argparse.ArgumentParser(description=(__doc__ or "").split("\n", maxsplit=1)[0])
    parser.add_argument("--program", required=True, type=lambda path: str(Path(path).resolve()))
    parser.add_argument("--target", action="append", choices=list(TARGETS))
    arguments = parser.parse_args(words)
    is_right = True
    with tempfile.TemporaryDirectory(dir="/dev/shm" if os.path.isdir("/dev/shm") else None) as name:
        folder = Path(name)
        for path, text in FILES.items():
            (folder / "tree" / path).parent.mkdir(parents=True, exist_ok=True)
            (folder / "tree" / path).write_text(text)
        program = Program(arguments.program, folder, build(folder))
        for target in arguments.target or TARGETS:
            stream = COMMANDS.encode() if TARGETS[target][0] == "session" else b""
            for is_all in (False, True):
                found = refuse_each(program, target, stream, is_all)
                is_right = is_right and not any(said.startswith("WRONG") for said in found)
                counts = "; ".join(f"{said}: {count}" for said, count in sorted(found.items()))
                which = "all from" if is_all else "only"
                print(f"{target}, {which} the Nth, N to {sum(found.values())}: {counts}", flush=True)
    return 0 if is_right and found else 1


if __name__ == "__main__":
    sys.exit(main(sys.argv[1:]))
