#!/usr/bin/env python3
"""Tries the edits outside the gate of a crate many at a time: the prover must refuse the function of each.

    tools/try_edits_at_once.py [--jobs N] CRATE..

A function is proved from its own body and from the contracts of those that it calls. So edits of different functions
can be in the code at once, and a check of the crate reports each function that is not proved. This takes a few checks
of the crate, where tools/try_edits.sh takes one for each edit.

In each round as many edits are made as can be, at most one of a function; an edit of a constant is one of each function
that names it. An edit is refused where a function that it changes is reported for itself, and not only since it calls
another one that is not proved. Where that function is proved all the same, as one without a contract is, a function
that names it has to be reported for itself, and have no edit of the round. An edit that a round leaves open is made
again in a later one, without those of the functions that were in its way. After a round that refuses none each edit
that is left is made alone.

A line is written for each edit. The status is 0 where each was refused, 1 where one was not, and 2 where a crate has no
edits or is not proved without them. Nothing of the checkout is changed: it works in a copy, in which `rt check` begins
with what a check of the checkout has kept.
"""

import argparse
import re
import shutil
import subprocess
import sys
import tempfile
from dataclasses import dataclass, field
from pathlib import Path
from typing import Dict, Iterable, Iterator, List, Optional, Set, Tuple

from check_rules import EDITS, ROOT, text_of

ITEM = re.compile(r"^ *(?:pub(?:\(crate\))? )?(?:const )?(fn|const|static|enum|struct|trait) (\w+)", re.MULTILINE)
VERDICT = re.compile(r"^(?:so far: )?fn ([\w:+]+): (.*)$", re.MULTILINE)
PROBLEM = re.compile(r"^(?:so far: )?(?:note: )?(?:\./)?((?:src|proofs)/[^:\s]+):(\d+):\d+: (?:error: )?(.*)$", re.MULTILINE)
TAKEN_AWAY = re.compile(r"has no field|is not in scope|has no `|was not admitted")


@dataclass(frozen=True)
class Place:
    """An item of a file of a crate: a function (`fn`), a constant or a type."""

    file: str
    name: str
    kind: str = "fn"


@dataclass(frozen=True)
class Change:
    file: str
    old: str
    new: str


@dataclass
class Edit:
    name: str
    changes: List[Change]
    places: Set[Place]
    # The names of functions that were in its way: those that its own calls and that were not proved.
    obstacles: Set[str] = field(default_factory=set)

    def names(self) -> Set[str]:
        return {place.name for place in self.places}

    def is_in_the_way_of(self, other: "Edit") -> bool:
        """Whether two edits are of one function, or one is of a function that was in the way of the other."""
        return bool(self.places & other.places or self.obstacles & other.names() or other.obstacles & self.names())


@dataclass(frozen=True)
class Function:
    place: Place
    text: str
    # The numbers of its lines.
    lines: range


# ------------------------------------------------------------------------------------------------ edits and code


def changes_of(text: str) -> Iterator[Change]:
    """The changes of the text of an edit."""
    file, old = "", ""
    for line in text.split("\n"):
        word, _, rest = line.partition(":")
        if word == "file":
            file = rest.strip()
        elif word == "old":
            old = rest[1:]
        elif word == "new":
            yield Change(file, old, rest[1:])


def items_of(text: str) -> List[Tuple[int, str, str]]:
    """The items of a file: where each begins, its kind and its name."""
    return [(item.start(), item[1], item[2]) for item in ITEM.finditer(text)]


def place_of(text: str, change: Change) -> Place:
    """The item that a change is in: the last one that begins before the end of its text."""
    end = text.index(change.old) + len(change.old)
    before = [(name, kind) for begin, kind, name in items_of(text) if begin < end]
    return Place(change.file, *before[-1])


def functions_of(crate: Path) -> Iterator[Function]:
    """The functions that are written in src/ of a crate."""
    for path in sorted((crate / "src").rglob("*.rt")):
        text, file = text_of(path), str(path.relative_to(crate))
        items = items_of(text)
        ends = [begin for begin, _, _ in items[1:]] + [len(text)]
        for (begin, kind, name), end in zip(items, ends):
            if kind == "fn":
                lines = range(text.count("\n", 0, begin) + 1, text.count("\n", 0, end) + 1)
                yield Function(Place(file, name), text[begin:end], lines)


def users_of(place: Place, functions: List[Function]) -> List[Function]:
    """The functions that name an item: those of its file, and where there are none, those of all files."""
    name = re.compile(rf"\b{re.escape(place.name)}\b")
    users = [function for function in functions if function.place != place and name.search(function.text)]
    return [user for user in users if user.place.file == place.file] or users


def edits_of(folder: Path, crate: Path, functions: List[Function]) -> Iterator[Edit]:
    """The edits of a folder. One of a constant or a type is one of each function that names it."""
    for path in sorted(folder.glob("*.edit")):
        changes = list(changes_of(text_of(path)))
        places = {place_of(text_of(crate / change.file), change) for change in changes}
        for place in [place for place in places if place.kind != "fn"]:
            places |= {user.place for user in users_of(place, functions)}
        yield Edit(path.stem, changes, places)


def with_changes(texts: Dict[str, str], crate: Path, edit: Edit) -> Optional[Dict[str, str]]:
    """The texts of changed files with those of an edit, too, or none where one of its texts is not there once."""
    changed = dict(texts)
    for change in edit.changes:
        text = changed.get(change.file) or text_of(crate / change.file)
        if text.count(change.old) != 1:
            return None
        changed[change.file] = text.replace(change.old, change.new)
    return changed


def round_of(left: List[Edit], crate: Path) -> Tuple[List[Edit], Dict[str, str]]:
    """As many edits as can be made at once, and the texts of the files that they change."""
    chosen: List[Edit] = []
    texts: Dict[str, str] = {}
    for edit in left:
        changed = with_changes(texts, crate, edit)
        if changed is not None and not any(edit.is_in_the_way_of(other) for other in chosen):
            chosen.append(edit)
            texts = changed
    return chosen, texts


# ------------------------------------------------------------------------------------------------ verdicts


def verdicts_of(said: str, crate: str) -> Dict[str, str]:
    """What a check says of each function, by its path in the crate. The last word on it counts."""
    return {path.removeprefix(f"{crate}::"): verdict for path, verdict in VERDICT.findall(said)}


def is_for_itself(verdict: str) -> bool:
    """Whether a function is reported since a goal of its own is not proved, and not only since it calls another one."""
    if verdict.startswith("no proof: expected answers"):
        return True
    return verdict.startswith(("no proof", "not proved")) and "it calls" not in verdict


def verdicts_at(verdicts: Dict[str, str], place: Place) -> List[str]:
    """What is said of the function of a place, which may be that of a type."""
    module = place.file.removeprefix("src/").removesuffix(".rt").replace("/", "::")
    path = re.compile(rf"{re.escape(module)}::(?:\w+::)?{re.escape(place.name)}")
    return [verdict for name, verdict in verdicts.items() if path.fullmatch(name)]


def is_reported(verdicts: Dict[str, str], place: Place) -> bool:
    return any(is_for_itself(verdict) for verdict in verdicts_at(verdicts, place))


def callees(verdicts: Iterable[str]) -> Set[str]:
    """The names of the functions that are said to be called and not proved."""
    return {name for verdict in verdicts for name in re.findall(r"(\w+)`", verdict.partition("it calls")[2])}


def refused_by(edit: Edit, verdicts: Dict[str, str], functions: List[Function], taken: Set[Place]) -> Optional[Place]:
    """The function whose report refuses an edit, or none. With none, the functions that were in its way are noted."""
    for place in edit.places:
        if is_reported(verdicts, place):
            return place
    for place in edit.places:
        edit.obstacles |= callees(verdicts_at(verdicts, place))
        for user in users_of(place, functions):
            if user.place in taken:
                edit.obstacles |= {user.place.name} - edit.names()
            elif is_reported(verdicts, user.place):
                return user.place
            else:
                edit.obstacles |= callees(verdicts_at(verdicts, user.place))
    return None


# ------------------------------------------------------------------------------------------------ rounds


def check(crate: Path, texts: Dict[str, str], jobs: int) -> subprocess.CompletedProcess:
    """Checks a crate with these texts in place of its files, and puts the files back."""
    kept = {file: text_of(crate / file) for file in texts}
    for file, text in texts.items():
        (crate / file).write_text(text, encoding="utf-8")
    words = ["rt", "check", "--jobs", str(jobs)]
    try:
        return subprocess.run(words, cwd=crate, stdout=subprocess.PIPE, stderr=subprocess.STDOUT, text=True, check=False)
    finally:
        for file, text in kept.items():
            (crate / file).write_text(text, encoding="utf-8")


def says_little(said: str, function: Function) -> bool:
    """Whether a function is only refused since a file of its proof names what an edit took away."""
    place = function.place
    folder = re.escape(place.file.removeprefix("src/").removesuffix(".rt"))
    proof = re.compile(rf"proofs/{folder}/(?:.*/)?{re.escape(place.name)}/")
    problems = PROBLEM.findall(said)
    if any(path == place.file and int(line) in function.lines for path, line, _ in problems):
        return False
    of_proof = [words for path, _, words in problems if proof.match(path) and "large solution" not in words]
    return bool(of_proof) and all(map(TAKEN_AWAY.search, of_proof))


def refusals(chosen: List[Edit], said: str, name: str, functions: List[Function]) -> Dict[str, str]:
    """Which edits of a round are refused, each with what refuses it. One that was made alone is refused by any report."""
    if "logic=not-proved" not in said:
        return {}
    if len(chosen) == 1:
        return {chosen[0].name: "the crate, alone"}
    verdicts = verdicts_of(said, name)
    taken = {place for edit in chosen for place in edit.places}
    found = {edit.name: refused_by(edit, verdicts, functions, taken) for edit in chosen}
    little = {function.place for function in functions if says_little(said, function)}
    remark = ", only as its proof names what the edit took away, which says little of the contract"
    return {
        edit: f"{place.name} of {place.file}{remark if place in little else ''}" for edit, place in found.items() if place
    }


def try_edits(root: Path, name: str, jobs: int) -> int:
    """Tries the edits of a crate in a copy of the checkout, and gives the status."""
    crate = root / "crates" / name
    functions, still_open = list(functions_of(crate)), []
    left = list(edits_of(root / "edits" / name, crate, functions))
    if check(crate, {}, jobs).returncode != 0:
        print(f"{name}: not proved without edits")
        return 2
    most = len(left)
    while left:
        chosen, texts = round_of(left[:most], crate)
        refused = refusals(chosen, check(crate, texts, jobs).stdout, name, functions) if chosen else {}
        for edit, by in refused.items():
            print(f"{name}/{edit}: refused by {by}")
        print(f"{name}: {len(refused)} of {len(chosen)} refused in this round, of {len(left)} that were left", flush=True)
        left = [edit for edit in left if edit.name not in refused]
        if not refused and most == 1:
            still_open.append(left.pop(0).name)
        most = most if refused else 1
    print("".join(f"{name}/{edit}: NOT REFUSED\n" for edit in still_open), end="")
    return 1 if still_open else 0


def main() -> int:
    parser = argparse.ArgumentParser(description=(__doc__ or "").split("\n", 1)[0])
    parser.add_argument("--jobs", type=int, default=2, metavar="N")
    parser.add_argument("crates", nargs="+", metavar="CRATE")
    words = parser.parse_args()
    lacking = [crate for crate in words.crates if not list((EDITS / crate).glob("*.edit"))]
    if lacking:
        print(f"try_edits_at_once.py: {lacking[0]}: no such edits", file=sys.stderr)
        return 2
    with tempfile.TemporaryDirectory(prefix="kconf-edits-") as room:
        copy = Path(room) / "copy"
        shutil.copytree(ROOT, copy, ignore=shutil.ignore_patterns(".git", "out"))
        return max(try_edits(copy, crate, words.jobs) for crate in words.crates)


if __name__ == "__main__":
    sys.exit(main())
