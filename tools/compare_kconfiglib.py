#!/usr/bin/python3
"""Compares kconf with Kconfiglib 14 (Debian's python3-kconfiglib) on random trees and edits of user values.

    tools/compare_kconfiglib.py [--kconf PROGRAM] [--trees 2000] [--seed 1] [--first 0] [--examples]

It is not part of the gate, and runs with Debian's python3. Without PROGRAM it builds kconf as the measurements of
bench/ do.

For each tree, one `kconf session` answers `list`, `choices` and `config` at the start and after each edit; the same is
asked of Kconfiglib. Where both differ on purpose (docs/COMPATIBILITY.md), the difference has a kind, and for each kind
there is the rule of kconf to put into Kconfiglib. A tree shows a kind where Kconfiglib with all rules but that of the
kind differs from kconf; a tree is unexplained where Kconfiglib with all rules still differs. The status is 1 where a
tree is unexplained, else 0.
"""

from __future__ import annotations

import argparse
import enum
import functools
import importlib.util
import re
import subprocess
import sys
import tempfile
from collections import Counter
from dataclasses import dataclass, field
from itertools import zip_longest
from pathlib import Path
from types import ModuleType
from typing import Any, Iterator

from random_kconfig import Case, random_case

QUERIES = ("list", "choices", "config")
KCONF_LOOP = "kconf: K19"
LIBRARY_LOOP = "Kconfiglib: loop"
# Trees that are passed over: kconf finds more loops than Kconfiglib (docs/COMPATIBILITY.md), and never fewer.
LOOPS = ([KCONF_LOOP], [LIBRARY_LOOP, KCONF_LOOP])
FAULT = re.compile(r"kconf: .*?\b(K\d\d)\b")
INT = re.compile(r"-?[0-9]+")
HEX = re.compile(r"(0[xX])?[0-9a-fA-F]+")
UNTYPED = re.compile(r"-?(0|[1-9][0-9]*)|0x[0-9a-fA-F]+")


class Kind(enum.Enum):
    """A difference on purpose, as docs/COMPATIBILITY.md names it."""

    IMPLY_Y = "an imply that is y"
    IMPLY_DIRECT = "an imply above the direct dependencies"
    COMPARED = "how numbers are written in comparisons"
    NUMERALS = "how numerals of int and hex are written"
    EMPTY_CHOICE = "a choice without type and members"
    CHOICE_M = "a select or imply in a choice that depends on m"


ALL_KINDS = frozenset(Kind)

# The state after an edit: whether it was accepted, then the answers to the queries, line by line.
State = list[str]


class Refused(Exception):
    """A tree was refused."""


# Rules of kconf, for Kconfiglib


def is_numeral(text: str, base: int) -> bool:
    """Whether a text is a numeral of int (base 10) or hex (base 16)."""
    if base == 10:
        return bool(INT.fullmatch(text)) and -(2**63) <= int(text) < 2**63
    return bool(HEX.fullmatch(text)) and int(text, 16) < 2**64


def compared_number(module: ModuleType, symbol: Any) -> int:
    """The number that a term of a comparison counts as. A ValueError says that it counts as none."""
    if symbol.orig_type in (module.BOOL, module.TRISTATE):
        return symbol.tri_value
    text = symbol.str_value
    base = {module.INT: 10, module.HEX: 16}.get(symbol.orig_type)
    if base and is_numeral(text, base):
        return int(text, base)
    if not base and UNTYPED.fullmatch(text) and -(2**63) <= int(text, 0) < 2**64:
        return int(text, 0)
    raise ValueError(text)


def default_value(module: ModuleType, symbol: Any) -> int:
    """The value of the first active default of a bool or tristate symbol."""
    for default, condition in symbol.defaults:
        if limit := module.expr_value(condition):
            return min(module.expr_value(default), limit)
    return 0


def value_of(module: ModuleType, symbol: Any, user_value: int | None, kinds: frozenset[Kind]) -> int:
    """The value of a bool or tristate symbol outside choices."""
    implied = module.expr_value(symbol.weak_rev_dep)
    direct = module.expr_value(symbol.direct_dep)
    if symbol.visibility and user_value is not None:
        value = min(user_value, symbol.visibility)
    elif Kind.IMPLY_DIRECT in kinds:
        value = min(max(default_value(module, symbol), implied), direct)
    else:
        value = max(default_value(module, symbol), implied if direct else 0)
    value = max(value, module.expr_value(symbol.rev_dep))
    is_raised = symbol.type is module.BOOL or (implied == 2 and Kind.IMPLY_Y not in kinds)
    return 2 if value == 1 and is_raised else value


def replace_implies(module: ModuleType, kinds: frozenset[Kind]) -> None:
    """Has symbols that are implied take their values, and those that can be given, by the rules of the kinds."""
    original_value = module.Symbol.tri_value.fget
    original_assignable = module.Symbol.assignable.fget

    def is_implied(symbol: Any) -> bool:
        is_tri = symbol.orig_type in (module.BOOL, module.TRISTATE)
        return is_tri and not symbol.choice and module.expr_value(symbol.weak_rev_dep) == 2

    def tri_value(symbol: Any) -> int:
        if symbol._cached_tri_val is None:
            original_value(symbol)
            if is_implied(symbol):
                symbol._cached_tri_val = value_of(module, symbol, symbol.user_value, kinds)
        return symbol._cached_tri_val

    def assignable(symbol: Any) -> tuple[int, ...]:
        if not is_implied(symbol) or not symbol.visibility:
            return original_assignable(symbol)
        given = (0, 2) if symbol.orig_type is module.BOOL else (0, 1, 2)
        return tuple(sorted({value_of(module, symbol, value, kinds) for value in given}))

    module.Symbol.tri_value = property(tri_value)
    module.Symbol.assignable = property(assignable)


def choice_type(module: ModuleType, choice: Any) -> int:
    """The type of a choice is bool, also where neither a line nor a member says so."""
    return choice.orig_type or module.BOOL


def replace_propagation(module: ModuleType) -> None:
    """Has what members select and imply depend on what their choice depends on, and not on the mode alone."""
    original = module.Kconfig._propagate_deps

    def propagate(tree: Any, node: Any, visible_if: Any) -> None:
        original(tree, node, visible_if)
        child = node.list if isinstance(node.item, module.Choice) else None
        while child:
            child.dep = tree._make_and(child.dep, node.dep)
            child.selects = [(target, tree._make_and(limit, node.dep)) for target, limit in child.selects]
            child.implies = [(target, tree._make_and(limit, node.dep)) for target, limit in child.implies]
            child = child.next

    module.Kconfig._propagate_deps = propagate


@functools.cache
def kconfiglib_with(kinds: frozenset[Kind]) -> ModuleType:
    """A Kconfiglib of its own, with kconf's rules for these kinds."""
    spec = importlib.util.find_spec("kconfiglib")
    if spec is None:
        sys.exit("kconfiglib is missing: apt-get install python3-kconfiglib, and use /usr/bin/python3")
    module = importlib.util.module_from_spec(spec)
    spec.loader.exec_module(module)
    if module.VERSION[0] != 14:
        sys.exit(f"this is Kconfiglib {module.VERSION[0]}, and not 14")
    if Kind.COMPARED in kinds:
        module._sym_to_num = functools.partial(compared_number, module)
    if Kind.NUMERALS in kinds:
        module._is_base_n = is_numeral
    if Kind.EMPTY_CHOICE in kinds:
        module.Choice.type = property(functools.partial(choice_type, module))
    if Kind.CHOICE_M in kinds:
        replace_propagation(module)
    if kinds & {Kind.IMPLY_Y, Kind.IMPLY_DIRECT}:
        replace_implies(module, kinds)
    return module


# Kconfiglib's answers, as kconf words them


@dataclass
class Library:
    """A tree that Kconfiglib has read."""

    module: ModuleType
    tree: Any

    def states(self, edits: list[str]) -> list[State]:
        states = [["ok", *self.answers()]]
        for edit in edits:
            said = "ok" if self.apply(edit) else "refused 3"
            states.append([said, *self.answers()])
        return states

    def apply(self, edit: str) -> bool:
        """Does an edit, and returns whether it is accepted."""
        command, *words = edit.split(" ", 2)
        if command == "reset":
            self.tree.unset_values()
            return True
        symbol = self.tree.syms[words[0]]
        if command == "set":
            return self.set(symbol, words[1])
        if symbol.choice is None:
            symbol.unset_value()
        elif symbol.choice.user_selection is symbol:
            symbol.choice.unset_value()
        return True

    def set(self, symbol: Any, value: str) -> bool:
        """Gives a user value; a member turns an optional choice on."""
        if symbol.choice is not None and symbol.choice.is_optional:
            symbol.choice.set_value(2)
        return symbol.set_value(value)

    def answers(self) -> list[str]:
        lines = [self.show_line(symbol) for symbol in self.tree.unique_defined_syms]
        lines += [self.choice_line(number, choice) for number, choice in enumerate(self.tree.unique_choices)]
        return lines + self.tree._config_contents("").splitlines()

    def show_line(self, symbol: Any) -> str:
        names = self.module.TRI_TO_STR
        can = ",".join(names[value] for value in symbol.assignable) or "-"
        kind = self.module.TYPE_TO_STR[symbol.orig_type]
        value, user = self.quoted(symbol, symbol.str_value), self.user(symbol)
        return f"{symbol.name} type={kind} value={value} vis={names[symbol.visibility]} can={can} user={user}"

    def user(self, symbol: Any) -> str:
        if symbol.choice is not None:
            return "y" if symbol.choice.user_selection is symbol else "-"
        if symbol.user_value is None:
            return "-"
        if symbol.orig_type in (self.module.BOOL, self.module.TRISTATE):
            return self.module.TRI_TO_STR[symbol.user_value]
        return self.quoted(symbol, symbol.user_value)

    def quoted(self, symbol: Any, text: str) -> str:
        return f'"{self.module.escape(text)}"' if symbol.orig_type is self.module.STRING else text

    def choice_line(self, number: int, choice: Any) -> str:
        prompt = self.module.escape(choice.nodes[0].prompt[0])
        selected, user = (it.name if it else "-" for it in (choice.selection, choice.user_selection))
        return f'choice {number} "{prompt}" mode={choice.str_value} sel={selected} user={user}'


def library_states(case: Case, path: Path, kinds: frozenset[Kind]) -> list[State]:
    """What Kconfiglib with the rules of these kinds answers. The tree is the file at the path."""
    module = kconfiglib_with(kinds)
    try:
        tree = module.Kconfig(str(path), warn=False)
    except module.KconfigError as error:
        raise Refused(LIBRARY_LOOP if "Dependency loop" in str(error) else f"Kconfiglib: {error}") from error
    return Library(module, tree).states(case.edits)


# kconf's answers


def kconf_states(kconf: Path, case: Case, path: Path) -> list[State]:
    """What kconf answers. The tree is the file at the path."""
    commands = list(QUERIES)
    for edit in case.edits:
        commands += [edit, *QUERIES]
    stream = "".join(f"{command}\n" for command in commands)
    words = [str(kconf), "session", path.name, "-"]
    ran = subprocess.run(words, cwd=path.parent, input=stream.encode(), capture_output=True, check=False)
    if ran.returncode:
        fault = FAULT.search(ran.stderr.decode())
        raise Refused(f"kconf: {fault[1]}" if fault else f"kconf: status {ran.returncode}, {ran.stderr.decode()}")
    replies = list(split_replies(ran.stdout.decode()))
    states = [["ok", *joined(replies[: len(QUERIES)])]]
    for at in range(len(QUERIES), len(replies), len(QUERIES) + 1):
        states.append([replies[at][-1], *joined(replies[at + 1 : at + 1 + len(QUERIES)])])
    return states


def joined(replies: list[list[str]]) -> list[str]:
    """The lines of replies, without the `ok` of each."""
    return [line for reply in replies for line in reply[:-1]]


def split_replies(text: str) -> Iterator[list[str]]:
    """The replies, each with its `ok` or `refused` as the last line. No line of a text is one of those."""
    reply = []
    for line in text.split("\n")[:-1]:
        reply.append(line)
        if line == "ok" or line.startswith("refused "):
            yield reply
            reply = []


# Comparing


@dataclass
class Found:
    """What was found in all trees."""

    refused: Counter = field(default_factory=Counter)
    kinds: Counter = field(default_factory=Counter)
    examples: dict[Kind, Case] = field(default_factory=dict)
    unexplained: list[tuple[int, Case, str]] = field(default_factory=list)
    edits: int = 0
    same: int = 0
    explained: int = 0


def first_difference(kconf: list[State], library: list[State], edits: list[str]) -> str:
    """Says where two lists of states differ first."""
    for number, (ours, theirs) in enumerate(zip(kconf, library)):
        for line, other in zip_longest(ours, theirs, fillvalue="(no line)"):
            if line != other:
                after = f"after edit {number}, {edits[number - 1]!r}" if number else "at the start"
                return f"{after}:\n  kconf:      {line}\n  Kconfiglib: {other}"
    return f"kconf gave {len(kconf)} states, and Kconfiglib {len(library)}"


def states_or_refusal(states, *arguments) -> list[State] | str:
    """What a function of states answers, or why the tree was refused."""
    try:
        return states(*arguments)
    except Refused as refused:
        return str(refused)


def compare(number: int, case: Case, kconf: Path, path: Path, found: Found) -> None:
    """Compares one tree, and adds what is found."""
    path.write_text(case.tree, encoding="utf-8")
    plain = states_or_refusal(library_states, case, path, frozenset())
    ours = states_or_refusal(kconf_states, kconf, case, path)
    refusals = [answer for answer in (plain, ours) if isinstance(answer, str)]
    if refusals:
        why = " and ".join(refusals)
        if refusals in LOOPS:
            found.refused[why] += 1
        else:
            found.unexplained.append((number, case, why))
        return
    found.edits += len(case.edits)
    if ours == plain:
        found.same += 1
        return
    adjusted = library_states(case, path, ALL_KINDS)
    if ours != adjusted:
        found.unexplained.append((number, case, first_difference(ours, adjusted, case.edits)))
        return
    found.explained += 1
    for kind in Kind:
        if library_states(case, path, ALL_KINDS - {kind}) != ours:
            found.kinds[kind] += 1
            best = found.examples.get(kind)
            if best is None or len(case.tree) < len(best.tree):
                found.examples[kind] = case


def report(found: Found, with_examples: bool) -> None:
    print(f"{found.same} trees the same, {found.edits} edits in all trees that were compared")
    for why, count in found.refused.most_common():
        print(f"{count} trees refused, {why}")
    print(f"{found.explained} trees with differences on purpose")
    for kind in Kind:
        print(f"{found.kinds[kind]} trees with: {kind.value}")
        if with_examples and kind in found.examples:
            print_case(found.examples[kind])
    for number, case, where in found.unexplained:
        print(f"unexplained, tree {number}, {where}")
        print_case(case)
    print(f"{len(found.unexplained)} trees unexplained")


def print_case(case: Case) -> None:
    print("\n".join(f"    {line}" for line in [*case.tree.splitlines(), "", *case.edits]))


def built_kconf() -> Path:
    """Builds kconf, and returns the path of the program."""
    bench = Path(__file__).resolve().parent.parent / "bench"
    script = 'bench=$1; source "$bench/build.sh"; build_kconf'
    built = subprocess.run(["bash", "-ec", script, "bash", str(bench)], stdout=subprocess.PIPE, text=True, check=True)
    return Path(built.stdout.strip())


def main() -> int:
    parser = argparse.ArgumentParser(description="Compares kconf with Kconfiglib 14 on random trees.")
    parser.add_argument("--kconf", type=Path, help="the program (else it is built)")
    parser.add_argument("--trees", type=int, default=2000, help="how many trees (2000)")
    parser.add_argument("--seed", type=int, default=1, help="another seed gives other trees (1)")
    parser.add_argument("--first", type=int, default=0, help="the number of the first tree (0)")
    parser.add_argument("--examples", action="store_true", help="print the smallest tree of each kind")
    options = parser.parse_args()
    kconf = (options.kconf or built_kconf()).resolve()
    found = Found()
    with tempfile.TemporaryDirectory(prefix="kconf-compare-") as folder:
        path = Path(folder) / "Kconfig"
        for number in range(options.first, options.first + options.trees):
            compare(number, random_case(options.seed, number), kconf, path, found)
    report(found, options.examples)
    return 1 if found.unexplained else 0


if __name__ == "__main__":
    sys.exit(main())
