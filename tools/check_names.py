#!/usr/bin/env python3
"""Checks that the documents name no function, no type and no file that is gone.

    tools/check_names.py

The gate runs it, by tools/check_all.sh. It reads README.md, CONTRIBUTING.md, CHANGELOG.md and docs/*.md, but for blocks
of code. What stands between backticks there is looked up in the code, the definitions and the proofs of the crates, in
the cases, and in the scripts, each without its comments. A line is written for each mistake, and the status is 1 where
there is one:

- a name alone between backticks, as `eval` or `MOST_LINES`, that stands nowhere there;
- a word with a `_` or a capital inside, in a longer text between backticks, that stands nowhere there;
- `Type::name` where the type has no such function, by itself or by a trait, and no such variant;
- a name in a column of functions that is no function of a crate that its row names;
- a file or a folder between backticks, or a CRATE/FILE anywhere, that is not there;
- a library of the toolchain that crates.txt has and docs/PROOFS.md does not name under "Uses", or the other way round.

Names of other programs, of libraries and of the system are in FOREIGN. A name that the text itself calls gone is not
looked up (`NAME`, which is gone), and neither is a word in capitals alone, since examples have symbols of such names.
"""

import re
import sys
from dataclasses import dataclass
from functools import lru_cache
from pathlib import Path
from typing import Dict, FrozenSet, Iterator, List, Set, Tuple

from check_rules import CRATES, DOCS, ROOT, cells_of, crates_of, shown, text_of
from rattle_code import VARIANT, bare, end_of_braces

WORD = re.compile(r"[A-Za-z_]\w*")
NAME = re.compile(r"(?:\w+(?:::|\.))*[A-Za-z_]\w*(?:\(\))?")
# A file or a folder of the repository, but of what a build makes and of a pattern such as crates/CRATE.
PATH = re.compile(
    r"(?:crates|docs|tools|bench|clients|edits)(?:/(?!out\b|[A-Z]+\.cases)[\w.-]*[a-z][\w.-]*)+(?![\w/*])"
)
SPECS = re.compile(r"(?:(kc_\w+)[^`|]*)?`(specs|proofs|src)/([\w/]+)`")

# What no file of the repository has, by what it is of.
FOREIGN = {
    "the kernel's make": {"randconfig", "allmodconfig", "write_min_config"},
    "the language": {"BufReader", "read_until"},
    "the system": {"statx", "openat", "getrandom", "brk", "mmap", "munmap", "rt_sigaction", "exit_group"},
    "symbols of examples": {"CC_VERSION_TEXT", "ENABLE_X"},
    "beginnings of names": {"is_", "has_"},
}

# The columns of tables that name functions of the crates that their rows name.
OF_FUNCTIONS = ("Function", "Functions", "Functions that it goes through", "By the contract of")


# ------------------------------------------------------------------------------------------------ what is there


def without_comments(path: Path) -> str:
    """The text of a file without its comments. An edit has none: it says what the code is not."""
    text = path.read_text(encoding="utf-8", errors="replace")
    if path.suffix in (".rt", ".antt"):
        return re.sub(r"//[^\n]*" if path.suffix == ".rt" else r"--[^\n]*", "", text)
    if path.suffix == ".py":
        return re.sub(r'^ *"""(?:.|\n)*?"""|#[^\n]*', "", text, flags=re.MULTILINE)
    return "" if path.suffix == ".edit" else text


@lru_cache(maxsize=None)
def all_files() -> Tuple[Path, ...]:
    """The files of the repository but the documents, without what a build has left."""
    folders = [ROOT / name for name in ("crates", "edits", "tools", "bench", "clients", ".ci")]
    found = [path for folder in folders for path in sorted(folder.rglob("*")) if path.is_file()]
    return tuple(path for path in found if not {"out", "__pycache__"} & set(path.relative_to(ROOT).parts))


def words_there() -> FrozenSet[str]:
    words: Set[str] = set().union(*FOREIGN.values())
    for path in [*all_files(), ROOT / "crates.txt", DOCS / "kconf.1"]:
        words |= set(WORD.findall(without_comments(path)))
    for path in [*all_files(), *DOCS.iterdir(), *ROOT.iterdir()]:
        words |= {path.stem, *path.relative_to(ROOT).parts}
    return frozenset(words)


@lru_cache(maxsize=None)
def code_of_crate(crate: str) -> str:
    return bare("\n".join(text_of(path) for path in sorted((CRATES / crate / "src").rglob("*.rt"))))


def functions(code: str) -> Set[str]:
    return set(re.findall(r"\bfn\s+(\w+)", code))


@lru_cache(maxsize=None)
def functions_of_crate(crate: str) -> FrozenSet[str]:
    return frozenset(functions(code_of_crate(crate)))


def members(code: str) -> Dict[str, Set[str]]:
    """What each type of bare code has: functions, by itself or by a trait, and the variants of an enum."""
    found: Dict[str, Set[str]] = {name: set() for name in re.findall(r"\b(?:struct|enum|trait|type)\s+(\w+)", code)}
    impls: List[Tuple[str, str]] = []
    for head in re.finditer(r"\b(enum|trait|impl)\b([^{};]*)\{", code):
        body = code[head.end() : end_of_braces(code, head.end())]
        named = set(VARIANT.findall(body)) if head[1] == "enum" else functions(body)
        trait, _, of = head[2].rpartition(" for ")
        if head[1] != "impl":
            found[WORD.findall(head[2])[0]] |= named
        for kind in set(WORD.findall(of)) & set(found):
            found[kind] |= named if head[1] == "impl" else set()
            impls += [(kind, word) for word in WORD.findall(trait)]
    for kind, trait in impls:
        found[kind] |= found.get(trait, set())
    return found


@lru_cache(maxsize=None)
def all_members() -> Dict[str, Set[str]]:
    return members("\n".join(code_of_crate(path.name) for path in sorted(CRATES.iterdir()) if path.is_dir()))


# ------------------------------------------------------------------------------------------------ documents


@dataclass(frozen=True)
class Line:
    """A line of a document outside blocks of code, with its number."""

    number: int
    text: str

    def spans(self) -> Iterator[str]:
        """What stands between backticks, but what the text calls gone."""
        for span in re.finditer(r"`([^`]+)`", self.text):
            if not re.match(r"[^`.|;]{0,40}, which is gone", self.text[span.end() :]):
                yield span[1]


def lines_of(text: str) -> Iterator[Line]:
    is_code = False
    for number, line in enumerate(text.split("\n"), start=1):
        if line.startswith("```"):
            is_code = not is_code
        elif not is_code and not line.startswith("    "):
            yield Line(number, line)


def is_looked_up(word: str, is_alone: bool) -> bool:
    if re.fullmatch(r"[A-Z][A-Z0-9]*|\d\w*", word):
        return False
    return is_alone or re.fullmatch(r"[a-z0-9]+(?:_[a-z0-9]+)+|[A-Z][a-z]+[A-Z]\w*", word) is not None


def name_mistakes(line: Line, there: FrozenSet[str]) -> Iterator[str]:
    for span in line.spans():
        is_alone = NAME.fullmatch(span) is not None
        words = [word for word in WORD.findall(span) if is_looked_up(word, is_alone)]
        yield from (f"no {word} is there (`{span}`)" for word in words if word not in there)


def member_mistakes(line: Line, known: Dict[str, Set[str]]) -> Iterator[str]:
    for span in line.spans():
        for kind, name in re.findall(r"\b([A-Z]\w*)::(\w+)", span):
            if kind in known and name not in known[kind]:
                yield f"{kind} has no {name}"


def is_place(crate: str, folder: str, name: str) -> bool:
    """Whether a crate has a file or a folder of this name in src/, specs/ or proofs/."""
    place = CRATES / crate / folder / name
    return place.is_dir() or any(place.with_name(place.name + end).is_file() for end in (".rt", ".antt", ""))


def place_mistakes(line: Line) -> Iterator[str]:
    prose = re.sub(r"`[^`]*`", "", line.text)
    for crate, name in re.findall(r"(?<![\w/])(kc_\w+)/([a-z_]+(?:/[a-z_]+)*)\b(?!\.\w)", prose):
        if not is_place(crate, "src", name):
            yield f"{crate} has no file src/{name}"
    crate = ""
    for named, folder, name in SPECS.findall(line.text):
        crate = named or crate
        homes = [crate] if crate else [path.name for path in CRATES.iterdir()]
        if not any(is_place(home, folder, name) for home in homes):
            yield f"{crate or 'no crate'} has {'no' if crate else 'the'} file {folder}/{name}"
    for span in line.spans():
        if (path := PATH.match(span)) and not (ROOT / path[0]).exists():
            yield f"no file {path[0]}"


def function_mistakes(lines: List[Line]) -> Iterator[Tuple[int, str]]:
    """What columns of functions name that no crate of the row has."""
    columns: List[int] = []
    for line in lines:
        cells = cells_of(line.text)
        if not line.text.startswith("|"):
            columns = []
        elif any(cell in OF_FUNCTIONS for cell in cells):
            columns = [place for place, cell in enumerate(cells) if cell in OF_FUNCTIONS]
        crates = set(re.findall(r"\bkc_\w+", line.text))
        there: Set[str] = set().union(*(functions_of_crate(crate) for crate in crates))
        for column in (column for column in columns if crates and column < len(cells)):
            names = re.findall(r"`(?:\w+::)?([a-z]\w+)`", cells[column])
            yield from ((line.number, f"no crate of the row has a function {it}") for it in names if it not in there)


def mistakes_of(text: str, there: FrozenSet[str], known: Dict[str, Set[str]]) -> Iterator[str]:
    """What a document names that is not there: no word of the repository, or nothing that is known of a type."""
    lines, found = list(lines_of(text)), []
    for line in lines:
        mistakes = [*name_mistakes(line, there), *member_mistakes(line, known), *place_mistakes(line)]
        found += [(line.number, mistake) for mistake in mistakes]
    found += function_mistakes(lines)
    yield from (f"{number}: {mistake}" for number, mistake in dict.fromkeys(sorted(found)))


def library_mistakes(proofs: str, crates: str) -> Iterator[str]:
    """Where the libraries that docs/PROOFS.md names are not those that crates.txt has."""
    found = re.search(r"\*\*Uses\*\* std and the crates ([\w,\s]+?)\s+of\s+the\s+toolchain", proofs)
    named = set(WORD.findall(found[1])) - {"and"} if found else set()
    used = {word for line in re.findall(r"^\w[^:#\n]*:([^#\n]*)", crates, re.MULTILINE) for word in line.split()}
    used -= set(crates_of(crates))
    yield from (f"docs/PROOFS.md: {name} is used, and not named" for name in sorted(used - named))
    yield from (f"docs/PROOFS.md: {name} is named, and not used" for name in sorted(named - used))


def main() -> int:
    documents = [ROOT / "README.md", ROOT / "CONTRIBUTING.md", ROOT / "CHANGELOG.md", *sorted(DOCS.glob("*.md"))]
    there, known = words_there(), all_members()
    mistakes = [f"{shown(it)}:{mistake}" for it in documents for mistake in mistakes_of(text_of(it), there, known)]
    mistakes += library_mistakes(text_of(DOCS / "PROOFS.md"), text_of(ROOT / "crates.txt"))
    print("\n".join(mistakes) if mistakes else f"{len(documents)} documents name what is there")
    return 1 if mistakes else 0


if __name__ == "__main__":
    sys.exit(main())
