#!/usr/bin/env python3
"""Lists the functions of a crate whose proofs took longest, by the modules that a check left in a folder.

    tools/dearest_functions.py FOLDER [N]

FOLDER is crates/CRATE/out/incremental after `rt check --jobs 1` in the crate, on a machine that has kept nothing of it:
one module is checked after another then, and the time since the one before is what it took. The prover has some fifteen
modules for each function: its code, the steps that can be made of it, its goals, their proof. Their times are added up,
and the N functions that took longest are written, 30 without N, with their seconds. A line before them has the sum.
"""

import argparse
import re
import sys
from collections import Counter
from pathlib import Path
from typing import Iterable, List, Optional, Tuple

# What follows the path of a function in the name of one of its modules.
PARTS = (
    "Answers Carried Code Given Goals Invariants Kinds Layout Lts Met Mir Named Pair Paired Proof Reads Statement Symbol"
    " TheImpl TheLink Tie View"
).split()
PART = re.compile(rf"\.(?:{'|'.join(PARTS)})(?:-[^.]*)?$")


def function_of(module: str) -> Optional[str]:
    """The function that a module is about, or none where it is a definition, a law or another crate's."""
    found = re.fullmatch(r"Rattle-\w+-proofs\.(.+?)(?:\.decls)?\.oantt", module)
    if found is None:
        return None
    path, before = found[1], ""
    while path != before:
        path, before = PART.sub("", path), path
    return path if path != found[1] else None


def times_of(modules: Iterable[Tuple[float, str]]) -> Counter:
    """The seconds of each function, from the times at which modules were written and their names."""
    seconds: Counter = Counter()
    ordered = sorted(modules)
    for (earlier, _), (later, module) in zip(ordered, ordered[1:]):
        seconds[function_of(module) or "definitions, laws and libraries"] += later - earlier
    return seconds


def main() -> int:
    parser = argparse.ArgumentParser(description="Lists the functions of a crate whose proofs took longest.")
    parser.add_argument("folder", type=Path, metavar="FOLDER")
    parser.add_argument("count", type=int, nargs="?", default=30, metavar="N")
    words = parser.parse_args()
    modules: List[Tuple[float, str]] = [(path.stat().st_mtime, path.name) for path in words.folder.rglob("*.oantt")]
    seconds = times_of(modules)
    print(f"{sum(seconds.values()):8.1f} s  {len(modules)} modules, {len(seconds)} functions")
    for function, time in seconds.most_common(words.count):
        print(f"{time:8.1f} s  {function}")
    return 0 if modules else 1


if __name__ == "__main__":
    sys.exit(main())
