#!/usr/bin/env python3
"""Compares the words of `--explain` with the tables of docs/ERRORS.md.

    tools/check_explanations.py

The gate runs it, by tools/check_all.sh. A line is written for each number whose words differ or that one of the two
lacks, for each error without a heading in the document, and for a table whose numbers are not those from 1 on; the
status is 1 where there is one.
"""

import re
import sys
from pathlib import Path

ROOT = Path(__file__).resolve().parent.parent
CODE = ROOT / "crates" / "kc_explain" / "src" / "meanings.rt"
DOCUMENT = ROOT / "docs" / "ERRORS.md"

# The tables: the name in the code, the heading above that of the document, the form of a number there, how many.
TABLES = [("FAULTS", "In short", r"K(\d\d)", 20), ("WARNINGS", "Warnings", r"(\d)", 5)]


def words_in_code(name: str) -> dict[int, str]:
    """The words of a static table, by their numbers."""
    text = CODE.read_text(encoding="utf-8")
    table = re.search(rf"^static {name}: .*?^\];$", text, re.MULTILINE | re.DOTALL)
    if table is None:
        sys.exit(f"{CODE}: no table {name}")
    rows = re.findall(r'\(\s*(\d+),\s*"([^"]*)",?\s*\)', table.group())
    return {int(number): words for number, words in rows}


def words_in_document(heading: str, number: str) -> dict[int, str]:
    """The words in the second column of the table below a heading, by their numbers."""
    text = DOCUMENT.read_text(encoding="utf-8")
    below = text.split(f"\n## {heading}\n", 1)[1].split("\n## ", 1)[0]
    rows = re.findall(rf"^\| {number} \| ([^|]*) \|", below, re.MULTILINE)
    return {int(number): words for number, words in rows}


def mistakes() -> list[str]:
    found = []
    for name, heading, number, count in TABLES:
        code, document = words_in_code(name), words_in_document(heading, number)
        if sorted(code) != list(range(1, count + 1)):
            found.append(f"{name}: the numbers are {sorted(code)}")
        for each in sorted(code.keys() | document.keys()):
            if code.get(each) != document.get(each):
                found.append(f"{heading} {each}: {code.get(each)!r} in the code, {document.get(each)!r} in the document")
    headings = set(re.findall(r"^### K(\d\d): ", DOCUMENT.read_text(encoding="utf-8"), re.MULTILINE))
    found += [f"K{each:02}: no heading" for each in range(1, 21) if f"{each:02}" not in headings]
    return found


def main() -> int:
    found = mistakes()
    count = sum(count for *_, count in TABLES)
    print("\n".join(found) if found else f"{count} explanations")
    return 1 if found else 0


if __name__ == "__main__":
    sys.exit(main())
