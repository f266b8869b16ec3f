#!/usr/bin/env python3
"""Checks that docs/RULES.md lacks no row: of a section of the documents, and of a file of definitions.

    tools/check_whole.py

The gate runs it, by tools/check_all.sh. A section of the documents in DOCUMENTS, and a file of specs/ with a definition
that a public contract reaches (tools/check_reach.py says which), is named in a row, or else in the tables of "What has
no row". A line is written for each mistake, and the status is 1 where there is one:

- a section or a file that is in neither;
- one that is in both, and one of these tables that is not there or that no public contract reaches.
"""

import re
import sys
from typing import Iterator, List, Set, Tuple

from check_reach import all_definitions, unreached
from check_rules import COLUMNS, DOCS, WITHOUT_ROWS, Row, cells_of, headings_of, rows_of, text_of

DOCUMENTS = ["LANGUAGE.md", "VALUES.md", "ERRORS.md", "FILES.md", "COMMANDS.md", "PROTOCOL.md"]

# A section, with its heading and document, and a file of definitions.
LINK = re.compile(r"\[([^\]]+)\]\(([^)#]+)#[^)]*\)")
NAME = re.compile(r"`([^`]+)`")

# A section or a file: its document and heading, or its crate and name.
Place = Tuple[str, str]


def sections() -> Set[Place]:
    return {(name, heading) for name in DOCUMENTS for heading in headings_of(text_of(DOCS / name))}


def reached_files() -> Set[Place]:
    """The files of specs/ with a definition that a public contract reaches."""
    files = all_definitions()
    left = unreached(files)
    return {place for place, found in files.items() if len(left[place]) < len(found.texts)}


def sections_in(rows: List[Row]) -> Set[Place]:
    return {(name, heading) for row in rows for heading, name, _ in row.links()}


def files_in(rows: List[Row]) -> Set[Place]:
    """The files of definitions that rows name."""
    places = [item.split()[0].partition("/") for row in rows for item in row.items("Definition")]
    return {(crate, name) for crate, _, name in places}


def without_row(text: str) -> Set[Place]:
    """What the tables of what has no row name: sections by their links, and a crate with files of it."""
    rows = [cells_of(line) for line in text.split(WITHOUT_ROWS)[-1].split("\n") if line.startswith("|")]
    sections = {(name, heading) for cells in rows for heading, name in LINK.findall(cells[0])}
    return sections | {(cells[0], name) for cells in rows if len(cells) == 3 for name in NAME.findall(cells[1])}


def mistakes_of(there: Set[Place], named: Set[Place], excepted: Set[Place]) -> Iterator[str]:
    """What is wrong with the places that are there, by those that rows name and those without a row."""
    kinds = {
        "no row names it": there - named - excepted,
        "it has a row": excepted & named,
        "it is not there, or no public contract reaches it": excepted - there,
    }
    for kind, places in kinds.items():
        yield from (f"{name!r} of {where}: {kind}" for where, name in sorted(places))


def main() -> int:
    text = text_of(DOCS / "RULES.md")
    rows = [row for row in rows_of(text) if len(row.cells) == len(COLUMNS)]
    there, named = sections() | reached_files(), sections_in(rows) | files_in(rows)
    mistakes = list(mistakes_of(there, named, without_row(text)))
    for mistake in mistakes:
        print(f"docs/RULES.md: {mistake}")
    if not mistakes:
        print(f"{len(there)} sections and files")
    return 1 if mistakes else 0


if __name__ == "__main__":
    sys.exit(main())
