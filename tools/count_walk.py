#!/usr/bin/env python3
"""Counts the functions of kconf that one line of a Kconfig passes.

    tools/count_walk.py PROGRAM [--names]

PROGRAM is a build that is not proved, of tools/try_program.sh: in it no function is a part of another one. It is run
by gdb on a small tree without the line and with it. A function is passed by the line if it is called more often with
it. Functions of std and of other libraries, closures, traits of std and what frees values are not counted. For each
line its number of functions, of files and of crates is written, and with --names also the functions.
"""

import os
import re
import subprocess
import sys
import tempfile
from collections import Counter
from pathlib import Path
from typing import Dict, List, Tuple

FUNCTION = re.compile(r"([0-9a-f]+) [tT] (kc_\w+::.*)$")
GENERIC = re.compile(r"::<.*$")
NOT_COUNTED = re.compile(
    r"Destruct|::fn::|\+Fn|(PartialEq|PartialOrd|Ord|Eq|Default|Clone|From|Debug|Display|Iterator|BuildHasher|Drop)::\w+$"
)
CALLS = "KCONF_CALLS"  # the variable by which gdb is given the file that the calls are written to

# A line, the files of the tree without it, and those with it.
WALKS: List[Tuple[str, Dict[str, str], Dict[str, str]]] = [
    ("default y", {"Kconfig": "config X\n\tbool\n"}, {"Kconfig": "config X\n\tbool\n\tdefault y\n"}),
    ('source "f"', {"Kconfig": "config X\n\tbool\n"}, {"Kconfig": 'config X\n\tbool\nsource "f"\n', "f": ""}),
]


def functions_of(program: str) -> Dict[int, str]:
    """The functions of the crates by their places in the program."""
    found = {}
    for row in subprocess.run(["nm", program], capture_output=True, text=True, check=True).stdout.splitlines():
        if match := FUNCTION.match(row):
            name = GENERIC.sub("", match[2])
            if not NOT_COUNTED.search(name):
                found[int(match[1], 16)] = name
    return found


def calls_in(program: str, files: Dict[str, str]) -> "Counter[str]":
    """How often each function is called in a run over a tree of these files."""
    with tempfile.TemporaryDirectory() as folder:
        for name, text in files.items():
            Path(folder, name).write_text(text, encoding="utf-8")
        calls = Path(folder, "calls")
        command = ["gdb", "-batch", "-nx", "-x", os.path.abspath(__file__)]
        command += ["--args", os.path.abspath(program), "allnoconfig", "Kconfig"]
        environment = {**os.environ, CALLS: str(calls), "ASAN_OPTIONS": "detect_leaks=0"}
        subprocess.run(command, cwd=folder, env=environment, capture_output=True, check=True)
        return Counter(calls.read_text(encoding="utf-8").split("\n")[:-1])


def trace(gdb) -> None:
    """Runs the program inside gdb, with a breakpoint at each function, and writes the name of each that is called."""
    gdb.execute("set pagination off")
    gdb.execute("starti", to_string=True)
    program = gdb.current_progspace().filename
    rows = gdb.execute("info proc mappings", to_string=True).splitlines()
    base = min(int(row.split()[0], 16) for row in rows if program in row)
    inferior = gdb.selected_inferior()
    names = {base + place: name for place, name in functions_of(program).items()}
    code = {place: bytes(inferior.read_memory(place, 1)) for place in names}
    for place in names:
        inferior.write_memory(place, b"\xcc")
    with open(os.environ[CALLS], "w", encoding="utf-8") as calls:
        while True:
            gdb.execute("continue", to_string=True)
            if not inferior.pid:
                return
            place = int(gdb.parse_and_eval("(unsigned long)$pc")) - 1
            calls.write(f"{names[place]}\n")
            inferior.write_memory(place, code[place])
            gdb.execute(f"set $pc = {place}")
            gdb.execute("stepi", to_string=True)
            inferior.write_memory(place, b"\xcc")


def main() -> int:
    words = [word for word in sys.argv[1:] if word != "--names"]
    if len(words) != 1:
        print("usage: tools/count_walk.py PROGRAM [--names]", file=sys.stderr)
        return 2
    for line, without, with_line in WALKS:
        more = calls_in(words[0], with_line) - calls_in(words[0], without)
        files = {name.rsplit("::", 1)[0] for name in more}
        crates = {name.split("::", 1)[0] for name in more}
        print(f"{line}: {len(more)} functions, {len(files)} modules and types, {len(crates)} crates")
        if "--names" in sys.argv:
            print("".join(f"    {name}\n" for name in sorted(more)), end="")
    return 0


try:
    import gdb as debugger
except ImportError:
    sys.exit(main())
trace(debugger)
