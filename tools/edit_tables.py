#!/usr/bin/env python3
"""Checks what docs/TESTING.md says of edits, and that each edit of the gate names the function that refuses it.

    tools/edit_tables.py [--tables]

The gate runs it, by tools/check_all.sh. An edit of crates/CRATE/must-fail has a line `-- function: WHAT`: the row of
the table of its crate in which it is listed. With --tables these tables are written to standard output; a crate without
edits in the gate has none. The page says how many edits there are in the gate and outside it, and has a table of the
wrong bodies that never leave the gate, each with its edits as `CRATE/NAME`, or with the files of cases that find it
where no contract can. A line is written for each mistake, and the status is 1 where there is one:

- an edit without that line, or with several;
- a name in backticks of that line that the crate defines neither as a function nor as a type;
- a page that does not say how many edits there are, or says other numbers;
- a wrong body that never leaves the gate, and names no edit and no cases, or an edit that is not in must-fail/, or
  cases that are not there; and a page without such a row.
"""

import argparse
import re
import sys
from collections import defaultdict
from pathlib import Path
from typing import Callable, Dict, Iterator, List, Tuple

from check_rules import CRATES, DATA, DOCS, EDITS, ROOT, all_edits, cells_of, crates_of, shown, text_of

PAGE = DOCS / "TESTING.md"
STAYING = "### The wrong bodies that stay in the gate\n"
COUNTS = re.compile(r"\b(\d+)\s+edits\s+in\s+the\s+gate\s+and\s+(\d+)\s+outside\s+it\b")

MARK = "-- function: "


def edits_of(crate: str) -> List[Path]:
    return sorted((CRATES / crate / "must-fail").glob("*.edit"))


def marks_of(edit: Path) -> List[str]:
    return [line[len(MARK) :] for line in text_of(edit).split("\n") if line.startswith(MARK)]


def mark_mistakes(crate: str) -> Iterator[str]:
    source = "\n".join(text_of(path) for path in sorted((CRATES / crate / "src").rglob("*.rt")))
    defined = set(re.findall(r"\b(?:fn|struct|enum|trait) (\w+)", source))
    for edit in edits_of(crate):
        marks = marks_of(edit)
        if len(marks) != 1:
            yield f"{shown(edit)}: {len(marks)} lines `{MARK}`, and not one"
        names = re.findall(r"\w+", " ".join(re.findall(r"`([^`]+)`", " ".join(marks))))
        if not names:
            yield f"{shown(edit)}: no function is named"
        yield from (f"{shown(edit)}: {crate} defines no {name}" for name in names if name not in defined)


def rows_of(crate: str) -> Dict[str, List[str]]:
    """What the marks of a crate's edits name, each with its edits."""
    rows: Dict[str, List[str]] = defaultdict(list)
    for edit in edits_of(crate):
        for mark in marks_of(edit):
            rows[mark].append(edit.stem)
    return rows


def table_of(crate: str, rows: Dict[str, List[str]]) -> str:
    """The table of a crate below its heading, by the names of functions."""
    by_name = sorted(rows, key=lambda mark: (mark.replace("`", "").lower(), mark))
    lines = [f"| {mark} | {', '.join(f'`{edit}`' for edit in rows[mark])} |" for mark in by_name]
    return "\n".join([f"### {crate}\n", "| Function | Edits |", "|---|---|", *lines, ""])


# ------------------------------------------------------------------------------------------------ how many


def edit_counts() -> Tuple[int, int]:
    """How many edits there are in the gate, and outside it."""
    edits = all_edits()
    outside = sum(EDITS in edit.parents for edit in edits)
    return len(edits) - outside, outside


def count_mistakes(page: str, counts: Tuple[int, int]) -> Iterator[str]:
    """What is wrong with the numbers of edits that a page has."""
    wanted = "{} edits in the gate and {} outside it".format(*counts)
    said = COUNTS.findall(page)
    if not said:
        yield f"it does not say that there are {wanted}"
    for gate, outside in said:
        if (int(gate), int(outside)) != counts:
            yield f"it has {gate} and {outside}, and there are {wanted}"


# ------------------------------------------------------------------------------------------------ what stays


def staying(page: str) -> Iterator[List[str]]:
    """The rows of the table of wrong bodies that stay in the gate: what each does, and what tries it."""
    section = re.split(r"\n#+ ", page.partition(STAYING)[2])[0]
    rows = [cells_of(line) for line in section.split("\n") if line.startswith("|")]
    yield from rows[2:]


def is_there(item: str) -> bool:
    """Whether an edit, CRATE/NAME, is in the gate, or a file of cases in kc_cases."""
    crate, slash, name = item.partition("/")
    return (CRATES / crate / "must-fail" / f"{name}.edit" if slash else DATA / f"{item}.cases").is_file()


def staying_mistakes(page: str, is_there: Callable[[str], bool]) -> Iterator[str]:
    rows = list(staying(page))
    if not rows:
        yield "no wrong body is named that stays in the gate"
    for row in rows:
        items = re.findall(r"`([^`]+)`", row[-1])
        if len(row) != 2 or not items:
            yield f"{row[0]!r}: no edit is named, and no cases"
        yield from (f"{row[0]!r}: {item} is not in the gate" for item in items if not is_there(item))


def main() -> int:
    parser = argparse.ArgumentParser(description="Checks what docs/TESTING.md says of edits, and what the edits name.")
    parser.add_argument("--tables", action="store_true", help="write the edits of the gate, by function")
    options = parser.parse_args()
    crates = crates_of(text_of(ROOT / "crates.txt"))
    mistakes = [mistake for crate in crates for mistake in mark_mistakes(crate)]
    page, counts = text_of(PAGE), edit_counts()
    of_page = [*count_mistakes(page, counts), *staying_mistakes(page, is_there)]
    mistakes += [f"{shown(PAGE)}: {mistake}" for mistake in of_page]
    if options.tables:
        print("\n".join(table_of(crate, rows_of(crate)) for crate in crates if edits_of(crate)))
    print("\n".join(mistakes) if mistakes else "{} edits of the gate, {} outside it".format(*counts))
    return 1 if mistakes else 0


if __name__ == "__main__":
    sys.exit(main())
