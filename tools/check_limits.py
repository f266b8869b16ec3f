#!/usr/bin/env python3
"""Checks that the tests and cases that docs/SECURITY.md names for the limits are there.

    tools/check_limits.py

The gate runs it, by tools/check_all.sh. It reads the section "Limits", whose tables end with a column "Tested by". What
is between backticks is a case, as `FILE: TITLE`, or tests, as `CRATE/FILE.rt NAME..`. A line is written for each
mistake, and the status is 1 where there is one:

- a row whose last cell names no test and no case;
- a file that is not there, a case that its file does not have, and a test that its file does not define;
- a table without this column, and a section without a row.
"""

import re
import sys
from typing import Iterator

from check_rules import DATA, DOCS, cells_of, has_item, item_mistakes, shown, text_of

PAGE = DOCS / "SECURITY.md"
SECTION = "## Limits"
COLUMN = "Tested by"


def section_of(text: str) -> str:
    """The section of the limits, up to the next heading of its depth."""
    found = re.search(rf"^{SECTION}\n(.*?)(?=^## |\Z)", text, re.MULTILINE | re.DOTALL)
    return found[1] if found else ""


def names_of(text: str) -> Iterator[str]:
    """What stands between backticks and is a case or a test."""
    for item in re.findall(r"`([^`]+)`", text):
        if re.match(r"(?!kconf)[a-z-]+: |\w+/[\w/]+\.rt ", item):
            yield item


def case_mistakes(item: str) -> Iterator[str]:
    file, _, title = item.partition(": ")
    path = DATA / f"{file}.cases"
    if not path.is_file():
        yield f"no file {shown(path)}"
    elif f"=== {title}" not in text_of(path).split("\n"):
        yield f"{shown(path)} has no case {title!r}"


def mistakes_of(item: str) -> Iterator[str]:
    if re.match(r"\w+/", item):
        return item_mistakes(item, "src", "", has_item)
    return case_mistakes(item)


def main() -> int:
    text = section_of(text_of(PAGE))
    rows = [cells_of(line) for line in text.split("\n") if line.startswith("|")]
    heads = [row for row in rows if row[0] == "What"]
    rows = [row for row in rows if row not in heads and not row[0].startswith("---")]
    mistakes = [f"a table without the column {COLUMN!r}" for head in heads if head[-1] != COLUMN]
    mistakes += [f"{row[0]}: nothing is named" for row in rows if not list(names_of(row[-1]))]
    mistakes += [mistake for item in names_of(text) for mistake in mistakes_of(item)]
    if not rows:
        mistakes.append("no row")
    print("\n".join(f"{shown(PAGE)}: {mistake}" for mistake in mistakes) if mistakes else f"{len(rows)} limits")
    return 1 if mistakes else 0


if __name__ == "__main__":
    sys.exit(main())
