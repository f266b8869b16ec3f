#!/usr/bin/env python3
"""Writes what a measurement found into the table of docs/PERFORMANCE.md.

    bench/targets.sh PROGRAM TREE | tee run1
    bench/write_table.py "targets.sh, Linux 6.1" run1 [RUN..]

RUN is the output of a script of bench/, in which a line such as

    olddefconfig against conf, user and system time: 107.0 ms against 277.0 ms: 0.39 (wanted: at most 0.45)

is a row: what was measured, the two values where the line has them, the ratio, what is wanted. Of several runs the row has
the values of the run in the middle, and the least and the greatest ratio; it is kept where that of the run in the middle
is. The rows take the place of those with the same first cell, or come after all others. `text.sh` prints no values in
these lines. The status is 1 where a RUN has no such line, and 2 for a usage error.
"""

import re
import sys
from pathlib import Path
from typing import Dict, List, NamedTuple

PAGE = Path(__file__).resolve().parent.parent / "docs" / "PERFORMANCE.md"
HEAD = "| Script, tree | Measured | Found | Ratio | Wanted, at most | Kept |"
LINE = re.compile(
    r"(?P<what>[^:]+)(?:: (?P<found>[^:]+ against [^:]+))?: (?P<ratio>\d+\.\d+)(?:, of [\d.]+ to [\d.]+)?"
    r" \((?:wanted: )?at most (?P<most>[\d.]+)\)"
)


class Found(NamedTuple):
    """What a run found for a row."""

    ratio: float
    most: float
    values: str


def read_runs(paths: List[str]) -> Dict[str, List[Found]]:
    """What the runs found, by what was measured, in the order of the first run."""
    rows: Dict[str, List[Found]] = {}
    for path in paths:
        lines = [match for line in Path(path).read_text().split("\n") if (match := LINE.fullmatch(line))]
        if not lines:
            sys.exit(f"{path}: no line has a ratio and what is wanted")
        for line in lines:
            found = Found(float(line["ratio"]), float(line["most"]), line["found"] or "")
            rows.setdefault(line["what"], []).append(found)
    return rows


def row_of(name: str, what: str, runs: List[Found]) -> str:
    runs = sorted(runs)
    middle, least, greatest = runs[len(runs) // 2], runs[0].ratio, runs[-1].ratio
    ratio = f"{least:.2f}" if len(runs) == 1 else f"{middle.ratio:.2f}, of {least:.2f} to {greatest:.2f}"
    kept = "yes" if greatest <= middle.most else "not in each run" if middle.ratio <= middle.most else "**no**"
    return f"| `{name}` | {what} | {middle.values} | {ratio} | {middle.most:g} | {kept} |"


def with_rows(text: str, name: str, rows: List[str]) -> str:
    """The page with these rows in place of those of the same name, or after all others."""
    lines = text.split("\n")
    begin = lines.index(HEAD) + 2
    end = next(at for at in range(begin, len(lines)) if not lines[at].startswith("|"))
    table = lines[begin:end]
    own = [at for at, line in enumerate(table) if line.startswith(f"| `{name}` |")]
    place = own[0] if own else len(table)
    others = [line for at, line in enumerate(table) if at not in own]
    return "\n".join([*lines[:begin], *others[:place], *rows, *others[place:], *lines[end:]])


def main() -> int:
    if len(sys.argv) < 3:
        print('usage: bench/write_table.py "SCRIPT, TREE" RUN..', file=sys.stderr)
        return 2
    name, *paths = sys.argv[1:]
    rows = [row_of(name, what, runs) for what, runs in read_runs(paths).items()]
    PAGE.write_text(with_rows(PAGE.read_text(encoding="utf-8"), name, rows), encoding="utf-8")
    return 0


if __name__ == "__main__":
    sys.exit(main())
