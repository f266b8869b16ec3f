#!/usr/bin/env python3
"""Judges what `kconf check` proposes for undefined names of real trees: which share of it is right.

    tools/judge_names.py PROGRAM tools/near_names.txt TREE=FOLDER..

It is not part of the gate, as it needs the trees. FOLDER has a tree as docs/TREES.md expands it: `expanded`, and
`words` with its variables where it has some. TREE is what the list calls it; several versions can have one name.

The list has a line `TREE NAME PROPOSED right|wrong` for each proposal, and after `#` a reason. A proposal is right
where the author of the line meant the symbol that is proposed: after a typing error, with a prefix too much, or before
it got another name. Most undefined names that are near a defined one are symbols of another architecture, so those are
wrong. A right one may be in the list before kconf proposes it.

For each tree it prints how many proposals are right, wrong, and not judged, counting each pair of names once and, in
parentheses, each line of the tree; then the proposals that are not judged, with a place each, and the right ones of the
list whose name is undefined in the tree and for which something else, or nothing, is proposed. The status is 1 where a
proposal is not judged, and 2 for a mistake of usage, a malformed list, or a program that fails.
"""

import re
import subprocess
import sys
from collections import Counter
from dataclasses import dataclass, field
from pathlib import Path
from typing import Dict, List, NoReturn, Optional, Set, Tuple

TOP_FILES = ("Kconfig", "Config.in", "src/Kconfig")
FINDING = re.compile(
    r"(?P<at>.+?:\d+): (?:\w+: )?undefined: (?:select |imply )?(?P<name>\S+?)"
    r"(?: \((?:always n|a text)\)| has no effect)(?:; did you mean (?P<proposed>\w+)\?)?"
)
VERDICTS = ("right", "wrong")

# A name and what is proposed for it.
Pair = Tuple[str, str]


def fail(words: str) -> NoReturn:
    print(f"judge_names.py: {words}", file=sys.stderr)
    sys.exit(2)


def read_list(path: str) -> Dict[str, Dict[Pair, str]]:
    """The verdicts of a list, by tree, and by the name and what is proposed for it."""
    verdicts: Dict[str, Dict[Pair, str]] = {}
    for number, line in enumerate(Path(path).read_text(encoding="utf-8").split("\n"), start=1):
        fields = line.split("#", maxsplit=1)[0].split()
        if not fields:
            continue
        if len(fields) != 4 or fields[3] not in VERDICTS:
            fail(f"{path}:{number}: not TREE NAME PROPOSED right|wrong")
        tree, name, proposed, verdict = fields
        if verdicts.setdefault(tree, {}).setdefault((name, proposed), verdict) != verdict:
            fail(f"{path}:{number}: another verdict on {proposed} for {name}")
    return verdicts


@dataclass
class Found:
    """What `check` says of the undefined names of a tree."""

    lines: "Counter[Pair]" = field(default_factory=Counter)  # how many lines have a proposal
    places: Dict[Pair, str] = field(default_factory=dict)  # the first line of each
    undefined: Set[str] = field(default_factory=set)

    def add(self, line: str) -> None:
        """Adds a finding, if it is of an undefined name."""
        found = FINDING.fullmatch(line)
        if not found:
            return
        self.undefined.add(found["name"])
        if found["proposed"]:
            pair = (found["name"], found["proposed"])
            self.lines[pair] += 1
            self.places.setdefault(pair, found["at"])


def checked(program: str, folder: Path) -> Found:
    """The undefined names of the tree in a folder."""
    tree = folder / "expanded"
    top = next((name for name in TOP_FILES if (tree / name).is_file()), None)
    if top is None:
        fail(f"{tree}: no {', '.join(TOP_FILES)}")
    words = ["--variables", str((folder / "words").resolve())] if (folder / "words").is_file() else []
    command = [program, "check", "-C", str(tree), top, "--undefined", *words]
    try:
        done = subprocess.run(command, capture_output=True, text=True, errors="replace")
    except OSError as error:
        fail(f"{program}: {error.strerror}")
    if done.returncode:
        fail(f"{' '.join(command)}: status {done.returncode}: {done.stderr.strip()}")
    found = Found()
    for line in done.stdout.split("\n"):
        found.add(line)
    return found


def count_of(found: Found, verdicts: Dict[Pair, str], verdict: Optional[str]) -> str:
    """How many proposals have a verdict, or none, and how many lines."""
    pairs = [pair for pair in found.lines if verdicts.get(pair) == verdict]
    return f"{len(pairs)} ({sum(found.lines[pair] for pair in pairs)})"


def report(tree: str, folder: str, found: Found, verdicts: Dict[Pair, str]) -> None:
    """Prints what is right of the proposals for a tree."""
    right, wrong, open_ones = (count_of(found, verdicts, verdict) for verdict in ("right", "wrong", None))
    print(f"{tree} {folder}: {right} right, {wrong} wrong, {open_ones} not judged, of {len(found.lines)} proposals")
    for name, proposed in found.lines:
        if (name, proposed) not in verdicts:
            print(f"  not judged: {tree} {name} {proposed}  # {found.places[name, proposed]}")
    for (name, proposed), verdict in verdicts.items():
        if verdict == "right" and name in found.undefined and (name, proposed) not in found.lines:
            print(f"  right, but not proposed: {tree} {name} {proposed}")


def main(words: List[str]) -> int:
    if len(words) < 3 or not all("=" in word for word in words[2:]):
        fail("usage: judge_names.py PROGRAM LIST TREE=FOLDER..")
    program, path, *trees = words
    verdicts = read_list(path)
    counts: "Counter[Optional[str]]" = Counter()
    for tree, folder in (word.split("=", maxsplit=1) for word in trees):
        found = checked(program, Path(folder))
        report(tree, folder, found, verdicts.get(tree, {}))
        counts.update(verdicts.get(tree, {}).get(pair) for pair in found.lines)
    judged = counts["right"] + counts["wrong"]
    share = f"{100 * counts['right'] / judged:.0f} percent of {judged} judged proposals are right" if judged else "none"
    print(f"{share}; {counts[None]} are not judged")
    return 1 if counts[None] else 0


if __name__ == "__main__":
    sys.exit(main(sys.argv[1:]))
