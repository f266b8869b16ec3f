#!/usr/bin/env python3
"""Finds the definitions that no public contract reaches, and compares docs/PROOFS.md with them.

    tools/check_reach.py [--each]

The gate runs it, by tools/check_all.sh. A definition of specs/ is reached where a public contract names it, or a
definition that is reached does. The others say how the code goes, for proofs alone: who relies on an answer of kconf
need not read them. The table of docs/PROOFS.md has the files in which nothing is reached, and the first line of each
begins with `-- Steps: `, as that of no other file does. A line is written for each file of which this is not true, and
the status is 1 where there is one. With --each the definitions of other files that are not reached are written, too,
which is no mistake.

A public contract is what users of a crate see: the clauses of the functions that src/lib.rt exports, and those of the
methods and traits, the fields and the `ghost` items of the types that it exports. Of kc_program and the two crates that
it alone uses every contract counts, as no other program calls them. Names are found by imports, so a bound variable that is called like an imported
definition counts as that definition: what is said not to be reached is not. A name that a file of specs/ passes on by
`pub use` counts as the definition that it passes on.
"""

import re
import sys
from dataclasses import dataclass, field
from pathlib import Path
from typing import Dict, Iterable, Iterator, List, Set, Tuple

from check_rules import CRATES, DOCS, cells_of, text_of

# The crates of the program: what is promised of it is in the contracts of private functions.
PROGRAM = ("kc_program", "kc_command_line", "kc_folder")

# The heading of docs/PROOFS.md above the table.
HEADING = "## Definitions that no public contract reaches"

# How the first line of a file begins in which nothing is reached.
STEPS = "-- Steps: "

# A definition: its crate, its file without the ending, and its name.
Definition = Tuple[str, str, str]

# A word, and the one after a dot that follows it. A word after a dot is a field, and names no definition.
NAME = r"([^\W\d][\w'-]*)"
WORD = re.compile(rf"(?<![\w.]){NAME}(?:\.{NAME})?")

# The first line of a definition, and the part of a record or of data.
BEGUN = re.compile(rf"(?:(?:abbrev|unfoldable) (?:pub )?|(?:pub )?(?:record|data) |pub ){NAME}")
PART = re.compile(rf"\s+(?:pub )?{NAME} :")


# ------------------------------------------------------------------------------------------------ imports


@dataclass
class Imports:
    """What the names of a file or of a block stand for: definitions, and whole files of specs/."""

    names: Dict[str, Definition] = field(default_factory=dict)
    files: Dict[str, Tuple[str, str]] = field(default_factory=dict)

    def add(self, line: str) -> None:
        """Adds what a `use` line imports from a file of specs/."""
        several = re.match(r"\s*(?:ghost |pub )?use Rattle\.(\w+)\.specs\.(\w+)\.\{(.*)\}", line)
        whole = re.match(r"\s*(?:ghost )?use Rattle\.(\w+)\.specs\.(\w+) as (\w+)", line)
        if several:
            for item in several[3].split(","):
                name, _, other = item.strip().partition(" as ")
                self.names[other or name] = (several[1], several[2], name)
        elif whole:
            self.files[whole[3]] = (whole[1], whole[2])

    def with_those_of(self, lines: List[str]) -> "Imports":
        wider = Imports(dict(self.names), dict(self.files))
        for line in lines:
            wider.add(line)
        return wider

    def named_in(self, text: str) -> Iterator[Definition]:
        """The definitions that a text names."""
        for word, after in WORD.findall(text):
            if after and word in self.files:
                yield (*self.files[word], after)
            elif word in self.names:
                yield self.names[word]


# ------------------------------------------------------------------------------------------------ definitions


@dataclass
class DefinitionFile:
    """A file of specs/: the text of each definition, and what names of parts of records and data belong to."""

    imports: Imports
    texts: Dict[str, str] = field(default_factory=dict)
    owners: Dict[str, str] = field(default_factory=dict)


def without_comments(text: str, mark: str) -> List[str]:
    return [line for line in text.split("\n") if not line.lstrip().startswith(mark)]


def read_definitions(crate: str, path: Path) -> DefinitionFile:
    found, name = DefinitionFile(Imports()), ""
    for line in without_comments(text_of(path), "--"):
        if line.startswith(("use ", "pub use ")):
            found.imports.add(line)
            continue
        begun, first = BEGUN.match(line), line.split(" ")[0]
        name = begun[1] if begun else first if first in found.texts else name
        if name:
            found.texts[name] = found.texts.get(name, "") + "\n" + line
        part = PART.match(line)
        if part:
            found.owners[part[1]] = name
    for name in found.texts:
        found.imports.names[name] = (crate, path.stem, name)
    return found


def all_definitions() -> Dict[Tuple[str, str], DefinitionFile]:
    files = (path for path in sorted(CRATES.glob("*/specs/*.antt")) if path.stem != "Lib")
    return {(path.parts[-3], path.stem): read_definitions(path.parts[-3], path) for path in files}


# ------------------------------------------------------------------------------------------------ public contracts


def exported_names(crate: Path) -> Set[str]:
    """What src/lib.rt exports of the crate's own items."""
    library = crate / "src" / "lib.rt"
    text = text_of(library) if library.is_file() else ""
    names: Set[str] = set()
    for module, several, one in re.findall(r"^pub use (\w+)::(?:\w+::)*(?:\{([^}]*)\}|(\w+));", text, re.MULTILINE):
        if not module.startswith("kc_"):
            names |= {name.strip() for name in (several or one).split(",") if name.strip()}
    return names


def items_of(lines: List[str]) -> Iterator[List[str]]:
    """The items of a file: a line without a blank at its beginning, with those up to its end."""
    item: List[str] = []
    for line in lines:
        if item and line and not line.startswith((" ", "}", "{", ")")):
            yield item
            item = []
        item.append(line)
    yield item


def without_bodies(lines: List[str], is_public: bool) -> List[str]:
    """A block without the bodies of its functions, and without its private functions where these are not public."""
    kept, skips = [], ""
    for line in lines:
        indent = line[: len(line) - len(line.lstrip())]
        if skips:
            skips = "" if line == skips else skips
        elif re.match(r"\s+(?:pub\(\w+\) )?(?:const )?fn ", line) and not is_public:
            skips = indent + "}"
        elif line.strip() == "{":
            skips = indent + "}"
        elif not line.lstrip().startswith("#["):
            kept.append(line)
    return kept


def public_part(item: List[str], exported: Set[str]) -> List[str]:
    """What users of a crate see of an item: nothing, or its contract."""
    head = item[0]
    named = re.match(r"pub (?:const )?(?:fn|struct|enum|trait) (\w+)", head)
    of_type = re.match(r"impl(?:<[^{]*?>)? (?:(.*) for )?(\w+)(?:<.*>)? *(?:\{|$|where)", head)
    if named and named[1] in exported:
        return without_bodies(item, True)
    if of_type and of_type[2] in exported:
        return without_bodies(item, of_type[1] is not None)
    return []


def named_by_contracts(crate: Path) -> Iterator[Definition]:
    """The definitions that the public contracts of a crate name."""
    exported = exported_names(crate)
    for path in sorted((crate / "src").rglob("*.rt")):
        lines = without_comments(text_of(path), "//")
        imports = Imports().with_those_of([line for line in lines if line.startswith("ghost use ")])
        for item in items_of(lines):
            part = without_bodies(item, True) if crate.name in PROGRAM else public_part(item, exported)
            own = [line for line in part if line.strip().startswith("ghost use ")]
            text = "\n".join(line for line in part if line not in own)
            yield from imports.with_those_of(own).named_in(text)


# ------------------------------------------------------------------------------------------------ what is reached


def reached_from(begun: Set[Definition], files: Dict[Tuple[str, str], DefinitionFile]) -> Set[Definition]:
    """The definitions of these files that are named by these, by what these name, and so on."""
    reached: Set[Definition] = set()
    left = sorted(begun)
    while left:
        crate, place, name = left.pop()
        found = files.get((crate, place))
        if found is None:
            continue
        name = name if name in found.texts else found.owners.get(name, name)
        if name not in found.texts:
            left += [found.imports.names[name]] if name in found.imports.names else []
        elif (crate, place, name) not in reached:
            reached.add((crate, place, name))
            left += found.imports.named_in(found.texts[name])
    return reached


def unreached(files: Dict[Tuple[str, str], DefinitionFile]) -> Dict[Tuple[str, str], List[str]]:
    """The definitions that are not reached, by crate and file."""
    begun = {definition for crate in sorted(CRATES.iterdir()) for definition in named_by_contracts(crate)}
    reached = reached_from(begun, files)
    return {place: [name for name in found.texts if (*place, name) not in reached] for place, found in files.items()}


# ------------------------------------------------------------------------------------------------ the table


def listed_files(text: str) -> Set[Tuple[str, str]]:
    """The files in the table of docs/PROOFS.md."""
    below = text.split(f"\n{HEADING}\n", 1)[-1].split("\n## ", 1)[0]
    rows = [cells_of(line) for line in below.split("\n") if line.startswith("| kc_")]
    return {(cells[0], name) for cells in rows for name in re.findall(r"`(\w+)`", cells[1])}


def is_of_steps(place: Tuple[str, str]) -> bool:
    """Whether the first line of a file says that it only tells how the code goes on."""
    crate, file = place
    return text_of(CRATES / crate / "specs" / f"{file}.antt").startswith(STEPS)


def misnamed(files: Iterable[Tuple[str, str]], whole: Set[Tuple[str, str]]) -> List[str]:
    """What is wrong with the first lines of files, of which these are reached by no public contract."""
    wrong = sorted(place for place in files if is_of_steps(place) != (place in whole))
    return [
        f"{crate}/specs/{file}.antt: no public contract reaches it, and its first line lacks {STEPS!r}"
        if (crate, file) in whole
        else f"{crate}/specs/{file}.antt: a public contract reaches it, and its first line has {STEPS!r}"
        for crate, file in wrong
    ]


def main() -> int:
    files = all_definitions()
    left = unreached(files)
    whole = {place for place, names in left.items() if len(names) == len(files[place].texts)}
    listed = listed_files(text_of(DOCS / "PROOFS.md"))
    for crate, file in sorted(whole - listed):
        print(f"docs/PROOFS.md: it lacks {crate}/specs/{file}.antt, which no public contract reaches")
    for crate, file in sorted(listed - whole):
        print(f"docs/PROOFS.md: it lists {crate}/specs/{file}.antt, which is reached or not there")
    wrong = misnamed(files, whole)
    for line in wrong:
        print(line)
    if "--each" in sys.argv[1:]:
        for (crate, file), names in sorted(left.items()):
            if names and (crate, file) not in whole:
                print(f"{crate}/specs/{file}.antt: {', '.join(names)}")
    if whole == listed and not wrong:
        print(f"{len(whole)} files of {len(files)} are reached by no public contract")
    return int(whole != listed or bool(wrong))


if __name__ == "__main__":
    sys.exit(main())
