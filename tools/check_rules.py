#!/usr/bin/env python3
"""Checks that docs/RULES.md names what is there, that edits apply, that links of documents lead somewhere, and that
kc_files and kc_session rest on the contracts of other crates, not on their proofs.

    tools/check_rules.py

The gate runs it, by tools/check_all.sh. docs/RULES.md says at its beginning what the cells of a row hold. A line is
written for each mistake, and the status is 1 where there is one:

- a row without its five cells, or a cell that names nothing;
- a document, a file of specs/ or src/, a file of cases or a test that is not there;
- a heading that its document does not have, and an anchor that is not that of its heading;
- a definition that its file of specs/ does not define, and a function, a constant or a test that its file of src/ does
  not define;
- a number from K01 to K20 without a row;
- a file of crates/kc_cases/data that no row names;
- an edit, of the gate or outside it, with a text to be replaced that does not occur once in its file;
- a name of two edits of a crate, one of the gate and one outside it, and a file of edits/ that is no edit of a crate;
- a link of a document to a file or a heading that is not there;
- a line of kc_files or kc_session that names the proofs/ of another crate;
- a row of the table of crates in docs/PERFORMANCE.md with another count of functions or of edits than the crate has;
- a count of cases in crates/kc_cases/stdout, README.md or docs/PROOFS.md that is not that of the files.
"""

import re
import sys
from dataclasses import dataclass
from pathlib import Path
from typing import Callable, Dict, Iterator, List, Set

ROOT = Path(__file__).resolve().parent.parent
DOCS = ROOT / "docs"
CRATES = ROOT / "crates"
EDITS = ROOT / "edits"
DATA = CRATES / "kc_cases" / "data"

COLUMNS = ("Rule", "Document", "Definition", "Code", "Cases")
NUMBERS = [f"K{number:02}" for number in range(1, 21)]

# The heading of docs/RULES.md after its tables of rules.
WITHOUT_ROWS = "\n## What has no row\n"

# These use the crates below as any other program may: by their public contracts alone.
RESTING_ON_CONTRACTS = ("kc_files", "kc_session")


def text_of(path: Path) -> str:
    return path.read_text(encoding="utf-8")


def shown(path: Path) -> str:
    return str(path.relative_to(ROOT))


def crates_of(text: str) -> List[str]:
    """The crates of a text of crates.txt, in its order."""
    return re.findall(r"^(\w+)\b[^:#\n]*:", text, re.MULTILINE)


# ------------------------------------------------------------------------------------------------ rows


@dataclass(frozen=True)
class Row:
    """A row of a table: a rule, and what its cells say."""

    line: int
    cells: List[str]

    @property
    def rule(self) -> str:
        return self.cells[0]

    def items(self, column: str) -> List[str]:
        """What stands between backticks in a cell."""
        return re.findall(r"`([^`]+)`", self.cells[COLUMNS.index(column)])

    def links(self) -> List[List[str]]:
        """Text, document and anchor of each link in the cell of documents."""
        return [list(link) for link in re.findall(r"\[([^\]]+)\]\(([^)#]+)#?([^)]*)\)", self.cells[1])]


def cells_of(line: str) -> List[str]:
    return [cell.strip() for cell in line.strip().strip("|").split("|")]


def rows_of(text: str) -> Iterator[Row]:
    """The rows of all tables before what has no row, without their heads."""
    for number, line in enumerate(text.split(WITHOUT_ROWS)[0].split("\n"), start=1):
        if line.startswith("|") and not line.startswith(("|---", "| Rule |")):
            yield Row(number, cells_of(line))


# ------------------------------------------------------------------------------------------------ documents


def headings_of(text: str) -> List[str]:
    """The headings of a document. A line of a code block is none."""
    headings, is_code = [], False
    for line in text.split("\n"):
        if line.startswith("```"):
            is_code = not is_code
        elif not is_code and re.match(r"#+ ", line):
            headings.append(line.lstrip("#").strip())
    return headings


def anchor_of(heading: str) -> str:
    return re.sub(r"[^\w\- ]", "", heading.lower()).replace(" ", "-")


def document_mistakes(row: Row) -> Iterator[str]:
    for heading, name, anchor in row.links():
        path = (DOCS / name).resolve()
        if not path.is_file():
            yield f"no document {name}"
        elif heading not in headings_of(text_of(path)):
            yield f"{name} has no heading {heading!r}"
        elif anchor != anchor_of(heading):
            yield f"the anchor of {heading!r} in {name} is #{anchor_of(heading)}"


def links_of(document: Path) -> Iterator[str]:
    """The links of a document to files and headings of the repository."""
    links = re.findall(r"\[[^\]]*\]\(([^)\s]+)\)", text_of(document))
    return (link for link in links if "://" not in link)


def link_mistakes(document: Path) -> Iterator[str]:
    for link in links_of(document):
        name, _, anchor = link.partition("#")
        target = (document.parent / name).resolve() if name else document
        if not target.is_file():
            yield f"{shown(document)}: no file {name}"
        elif anchor and anchor not in map(anchor_of, headings_of(text_of(target))):
            yield f"{shown(document)}: no heading of {shown(target)} has the anchor #{anchor}"


# ------------------------------------------------------------------------------------------------ definitions and code


def defines(text: str, name: str) -> bool:
    """Whether a file of specs/ defines a name."""
    kind = r"(?:abbrev |unfoldable )?pub (?:record |data )?"
    return bool(re.search(rf"^{kind}{re.escape(name)}(?= |$)", text, re.MULTILINE))


def has_item(text: str, name: str) -> bool:
    """Whether a file of src/ has a function or a constant of a name."""
    kind = r"\s*(?:pub(?:\((?:crate|super)\))? )?(?:const )?(?:fn|const) "
    return bool(re.search(rf"^{kind}{re.escape(name)}\b", text, re.MULTILINE))


def item_mistakes(item: str, folder: str, ending: str, has: Callable[[str, str], bool]) -> Iterator[str]:
    """The mistakes of `CRATE/FILE NAME..`, whose file stands in a folder of the crate."""
    place, *names = item.split()
    crate, _, file = place.partition("/")
    path = CRATES / crate / folder / (file + ending)
    if not names:
        yield f"`{item}` names nothing in {shown(path)}"
    elif not path.is_file():
        yield f"no file {shown(path)}"
    else:
        text = text_of(path)
        yield from (f"{shown(path)} has no {name}" for name in names if not has(text, name))


def definition_mistakes(row: Row) -> Iterator[str]:
    for item in row.items("Definition"):
        yield from item_mistakes(item, "specs", ".antt", defines)


def code_mistakes(row: Row) -> Iterator[str]:
    for item in row.items("Code"):
        yield from item_mistakes(item, "src", "", has_item)


# ------------------------------------------------------------------------------------------------ cases


def is_test(item: str) -> bool:
    return "/" in item


def case_mistakes(row: Row) -> Iterator[str]:
    for item in row.items("Cases"):
        if is_test(item):
            yield from item_mistakes(item, "src", "", has_item)
        elif not (DATA / f"{item}.cases").is_file():
            yield f"no file {shown(DATA / item)}.cases"


# ------------------------------------------------------------------------------------------------ all rows


def row_mistakes(row: Row) -> Iterator[str]:
    if len(row.cells) != len(COLUMNS):
        yield f"a row has the cells {', '.join(COLUMNS)}, and this one has {len(row.cells)}"
        return
    if not row.links():
        yield "no document is named"
    for column in COLUMNS[2:]:
        if not row.items(column):
            yield f"nothing is named as {column}"
    for mistakes in (document_mistakes, definition_mistakes, code_mistakes, case_mistakes):
        yield from mistakes(row)


def named_cases(rows: List[Row]) -> Set[str]:
    return {item for row in rows for item in row.items("Cases") if not is_test(item)}


def mistakes_of(rows: List[Row]) -> Iterator[str]:
    for row in rows:
        for mistake in row_mistakes(row):
            yield f"docs/RULES.md:{row.line}: {row.rule}: {mistake}"
    whole = [row for row in rows if len(row.cells) == len(COLUMNS)]
    numbers = {row.rule[:3] for row in whole}
    yield from (f"docs/RULES.md: no row of {number}" for number in NUMBERS if number not in numbers)
    named = named_cases(whole)
    unnamed = (path for path in sorted(DATA.glob("*.cases")) if path.stem not in named)
    yield from (f"{shown(path)}: no row of docs/RULES.md names it" for path in unnamed)


# ------------------------------------------------------------------------------------------------ edits


def all_edits() -> List[Path]:
    """The edits of the gate, and those outside it."""
    return sorted([*CRATES.glob("*/must-fail/*.edit"), *EDITS.glob("*/*.edit")])


def crate_of(edit: Path) -> str:
    return edit.relative_to(ROOT).parts[1]


def place_mistakes() -> Iterator[str]:
    for path in sorted(EDITS.rglob("*")):
        if path.is_file() and (path.parent.parent != EDITS or path.suffix != ".edit"):
            yield f"{shown(path)}: an edit is edits/CRATE/NAME.edit"
        elif path.is_dir() and not (CRATES / path.name).is_dir():
            yield f"{shown(path)}: no crate {path.name}"
    for edit in EDITS.glob("*/*.edit"):
        if (CRATES / crate_of(edit) / "must-fail" / edit.name).is_file():
            yield f"{shown(edit)}: the gate has an edit of the same name"


def stale_texts(edit: Path) -> Iterator[str]:
    """The texts of an edit that do not occur once where they are to be replaced."""
    crate, file, old = CRATES / crate_of(edit), "", ""
    texts: Dict[str, str] = {}
    for line in text_of(edit).split("\n"):
        word, _, rest = line.partition(": ")
        if word == "file":
            file = rest.strip()
            texts.setdefault(file, text_of(crate / file))
        elif word == "old":
            old = rest
            if texts[file].count(old) != 1:
                yield old
        elif word == "new":
            texts[file] = texts[file].replace(old, rest, 1)


def stale_mistakes() -> Iterator[str]:
    for edit in all_edits():
        yield from (f"{shown(edit)}: {old!r} does not occur once" for old in stale_texts(edit))


# ------------------------------------------------------------------------------------------------ proofs


def cited_crates(line: str) -> Set[str]:
    """The crates of the repository whose proofs/ a line names: in an import or in the words after `using`."""
    return set(re.findall(r"\b(kc_\w+)(?:\.|::)proofs\b", line))


def sources_of(crate: Path) -> Iterator[Path]:
    """The files of src/, specs/ and proofs/ of a crate."""
    for folder, ending in (("src", "rt"), ("specs", "antt"), ("proofs", "antt")):
        yield from sorted((crate / folder).rglob(f"*.{ending}"))


def proof_mistakes(crate: str) -> Iterator[str]:
    for path in sources_of(CRATES / crate):
        for number, line in enumerate(text_of(path).split("\n"), start=1):
            others = sorted(cited_crates(line) - {crate})
            yield from (f"{shown(path)}:{number}: it names the proofs of {other}" for other in others)


# ------------------------------------------------------------------------------------------------ counts


def function_count(crate: str) -> int:
    """How many functions are written in src/ of a crate."""
    function = re.compile(r"^\s*(?:pub(?:\(\w+\))? )?(?:const )?fn ", re.MULTILINE)
    return sum(len(function.findall(text_of(path))) for path in (CRATES / crate / "src").rglob("*.rt"))


def edit_count(crate: str) -> int:
    return len(list((CRATES / crate / "must-fail").glob("*.edit")))


def count_mistakes(text: str) -> Iterator[str]:
    """The mistakes in the table of crates: crates, their functions, minutes, and the edits that the gate tries."""
    for line in re.findall(r"^\| k\w+[^|]*\| \d.*$", text, re.MULTILINE):
        crates, functions, *_, edits = cells_of(line)
        wanted = ", ".join(str(function_count(crate)) for crate in crates.split(", "))
        if functions != wanted:
            yield f"docs/PERFORMANCE.md: the functions of {crates} are {wanted}"
        wanted_edits = sum(edit_count(crate) for crate in crates.split(", "))
        if (re.match(r"\d+", edits) or ["0"])[0] != str(wanted_edits):
            yield f"docs/PERFORMANCE.md: the edits of {crates} are {wanted_edits}"


def title_count(file: Path) -> int:
    return len(re.findall(r"^=== ", text_of(file), re.MULTILINE))


def case_count_mistakes() -> Iterator[str]:
    """The mistakes in the counts of cases: in what kc_cases has to write, and in documents."""
    counts = {file.name: title_count(file) for file in sorted(DATA.glob("*.cases"))}
    total = sum(counts.values())
    wanted = "".join(f"{name}: {count}\n" for name, count in counts.items()) + f"all: {total}\n"
    if text_of(CRATES / "kc_cases" / "stdout") != wanted:
        yield f"crates/kc_cases/stdout: it does not count the titles of the files, {total} in all"
    for document in (ROOT / "README.md", DOCS / "PROOFS.md"):
        for said in set(re.findall(r"(\d,\d{3}) cases", text_of(document))) - {f"{total:,}"}:
            yield f"{shown(document)}: it has {said} cases, and there are {total:,}"


def main() -> int:
    rows = list(rows_of(text_of(DOCS / "RULES.md")))
    mistakes = [*mistakes_of(rows), *stale_mistakes(), *place_mistakes(), *case_count_mistakes()]
    mistakes += count_mistakes(text_of(DOCS / "PERFORMANCE.md"))
    for document in sorted([*DOCS.glob("*.md"), *ROOT.glob("*.md")]):
        mistakes += link_mistakes(document)
    for crate in RESTING_ON_CONTRACTS:
        mistakes += proof_mistakes(crate)
    print("\n".join(mistakes) if mistakes else f"{len(rows)} rules")
    return 1 if mistakes else 0


if __name__ == "__main__":
    sys.exit(main())
