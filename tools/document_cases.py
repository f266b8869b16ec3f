#!/usr/bin/env python3
"""Compares the examples of the documents with the cases that they are in crates/kc_cases/data.

    tools/document_cases.py [--write]

The gate runs it, by tools/check_all.sh. The documents are docs/VALUES.md, docs/LANGUAGE.md and docs/ERRORS.md.
Each code block of these is an example, and so is each row of the tables that are named below. What an example lacks
to be a case is in the tables of this script: the lines around a fragment, the files that it sources, and what is
wanted where the document says it in words. An example that can't be a case is there with the reason.
The status is 1 where an example has no entry, an entry has no example, or the cases are not those of the documents,
each named by the document and the line. With --write it writes the cases.
"""

from __future__ import annotations

import argparse
import re
import sys
from dataclasses import dataclass, field
from itertools import product
from pathlib import Path
from typing import Callable, Iterator, Optional, Union

ROOT = Path(__file__).resolve().parent.parent
DATA = ROOT / "crates" / "kc_cases" / "data"

# ------------------------------------------------------------------------------------------------ examples


@dataclass(frozen=True)
class Example:
    """A code block or a table of a document."""

    heading: str
    number: int  # of those below the heading, from 1
    line: int
    kind: str  # "fenced", "indented" or "table"
    text: str
    sentence: str  # the last one before it

    @property
    def key(self) -> tuple[str, int]:
        return (self.heading, self.number)


def plain(text: str) -> str:
    """A text of a document without its marks."""
    return re.sub(r"\[([^\]]*)\]\([^)]*\)", r"\1", text).replace("`", "").replace("*", "")


def last_sentence(paragraph: list[str]) -> str:
    text = " ".join(line.strip() for line in paragraph)
    return plain(re.split(r"(?<=\.) ", text)[-1]).rstrip(".:")


class Reader:
    """Cuts a document into its examples."""

    def __init__(self, text: str) -> None:
        self.lines = text.split("\n")
        self.at = 0
        self.heading = ""
        self.number = 0
        self.paragraph: list[str] = []
        self.is_ended = False

    def examples(self) -> Iterator[Example]:
        while self.at < len(self.lines):
            line = self.lines[self.at]
            if line.startswith("#"):
                self.heading, self.number, self.paragraph = line.lstrip("# "), 0, []
                self.at += 1
            elif line.startswith("```"):
                yield self.fenced()
            elif line.startswith("    ") and not self.paragraph_goes_on():
                yield self.example("indented", self.taken(lambda each: not each or each.startswith("    ")))
            elif line.startswith("|"):
                yield self.example("table", self.taken(lambda each: each.startswith("|")))
            else:
                self.text_line(line)

    def paragraph_goes_on(self) -> bool:
        """Whether an indented line belongs to the paragraph or the list above it."""
        return self.at > 0 and self.lines[self.at - 1] != "" and self.lines[self.at - 1][0] != "#"

    def text_line(self, line: str) -> None:
        """Takes a line of a paragraph. An empty line or an example ends it; what stands behind that is still its own."""
        if line and self.is_ended:
            self.paragraph = []
        if line:
            self.paragraph.append(line)
        self.is_ended = not line
        self.at += 1

    def fenced(self) -> Example:
        self.at += 1
        example = self.example("fenced", self.taken(lambda each: not each.startswith("```")))
        self.at += 1
        return example

    def taken(self, belongs) -> list[str]:
        first = self.at
        while self.at < len(self.lines) and belongs(self.lines[self.at]):
            self.at += 1
        return self.lines[first : self.at]

    def example(self, kind: str, lines: list[str]) -> Example:
        self.number += 1
        self.is_ended = True
        line = self.at - len(lines) + 1
        if kind == "indented":
            lines = [each[4:] for each in lines]
        text = "\n".join(lines)
        if kind != "fenced":
            text = text.rstrip("\n")
        return Example(self.heading, self.number, line, kind, text + "\n", last_sentence(self.paragraph))


# ------------------------------------------------------------------------------------------------ the form of a case


@dataclass(frozen=True)
class Case:
    """A case, and the line of the document that it comes from."""

    line: int
    title: str
    sections: tuple[str, ...]

    def text(self) -> str:
        return f"=== {self.title}\n" + "".join(self.sections)


def section(header: str, text: str, times: int = 0) -> str:
    """A section with its text, escaped where the text ends without a line feed or a line of it ends with a space."""
    ended = text.endswith("\n") or not text
    lines = text.removesuffix("\n").split("\n") if text else []
    if not ended or any(line.endswith(" ") for line in lines):
        header += " escaped"
        lines = [re.sub(" $", r"\\s", line.replace("\\", "\\\\")) for line in lines]
    if not ended:
        lines[-1] = lines[-1].removesuffix("\\s") + " " * lines[-1].endswith("\\s") + "\\e"
    if times:
        header += f" {times} times"
    return f"--- {header}\n" + "".join(f"{line}\n" for line in lines)


def session_sections(commands: str, replies: str) -> tuple[str, str]:
    return (section("commands", commands), section("replies", replies))


def fault_section(fault: str) -> str:
    """What is wanted: a fault, or the names of the nodes of a loop behind `loop:`."""
    if fault.startswith("loop: "):
        return section("loop", fault.removeprefix("loop: ").replace(" ", "\n") + "\n")
    return section("fault", fault + "\n")


# ------------------------------------------------------------------------------------------------ entries


class Fault(Exception):
    """A document and this script do not fit."""


@dataclass(frozen=True)
class Without:
    """An example that can't be a case."""

    reason: str

    def cases(self, example: Example, previous: Example | None) -> Iterator[Case]:
        yield from ()


@dataclass(frozen=True)
class Opened:
    """A Kconfig, or a fragment with the lines before and behind it that make it one."""

    title: str
    commands: str = ""
    replies: str = ""
    fault: str = ""
    before: str = ""
    behind: str = ""
    files: dict[str, str] = field(default_factory=dict)
    variables: str = ""

    def cases(self, example: Example, previous: Example | None) -> Iterator[Case]:
        sections = [section("Kconfig", self.before + example.text + self.behind)]
        sections += [section(f"file {path}", text) for path, text in self.files.items()]
        if self.variables:
            sections.append(section("variables", self.variables))
        if self.fault:
            sections.append(fault_section(self.fault))
        else:
            sections += session_sections(self.commands, self.replies)
        yield Case(example.line, f"{plain(example.heading)}: {self.title}", tuple(sections))


@dataclass(frozen=True)
class Shown:
    """Commands with their answers, on the Kconfig before them."""

    title: str = ""  # else the sentence before the Kconfig
    before: str = ""  # lines that the text before the Kconfig names

    def cases(self, example: Example, previous: Example | None) -> Iterator[Case]:
        title = f"{plain(example.heading)}: {self.title or example.sentence}"
        sections = (section("Kconfig", self.before + previous.text), *session_sections(*replies_of(example)))
        yield Case(example.line, title, sections)


@dataclass(frozen=True)
class Written:
    """The text of the `.config` of the Kconfig before it."""

    def cases(self, example: Example, previous: Example | None) -> Iterator[Case]:
        sections = (section("Kconfig", previous.text), *session_sections("config\n", example.text + "ok\n"))
        yield Case(example.line, f"{plain(example.heading)}: {example.sentence}", sections)


@dataclass(frozen=True)
class Faults:
    """Kconfigs that an empty line parts, or that are a line each, with the fault of each. The title of a case is the
    heading with its lines."""

    faults: tuple[str, ...]
    by_line: bool = False
    files: dict[str, str] = field(default_factory=dict)

    def cases(self, example: Example, previous: Example | None) -> Iterator[Case]:
        texts = example.text.splitlines() if self.by_line else example.text.removesuffix("\n").split("\n\n")
        if len(texts) != len(self.faults):
            raise Fault(f"{len(texts)} texts, and {len(self.faults)} faults of them in this script")
        line = example.line
        for text, fault in zip(texts, self.faults):
            yield self.case(example, line, text + "\n", fault)
            line += text.count("\n") + (1 if self.by_line else 2)

    def case(self, example: Example, line: int, text: str, fault: str) -> Case:
        lines = (re.sub(r"\s+#.*", "", each).strip() for each in text.splitlines())
        sections = [section("Kconfig", text)]
        for path, content in self.files.items():
            if f'source "{path}"' in text:
                sections.append(section(f"file {path}", content))
        return Case(line, f"{plain(example.heading)}: {' / '.join(lines)}", (*sections, fault_section(fault)))


@dataclass(frozen=True)
class Repeated:
    """A Kconfig that the document describes by one line of it: its sections stand here."""

    title: str
    line: str
    sections: tuple[str, ...]

    def cases(self, example: Example, previous: Example | None) -> Iterator[Case]:
        if re.sub(r"\s+#.*", "", example.text.strip()) != self.line:
            raise Fault(f"not {self.line!r}, of which the sections in this script are made")
        yield Case(example.line, f"{plain(example.heading)}: {self.title}", self.sections)


@dataclass(frozen=True)
class Pairs:
    """Lines of two expressions that are the same, or of one that is malformed."""

    def cases(self, example: Example, previous: Example | None) -> Iterator[Case]:
        for number, line in enumerate(example.text.splitlines()):
            found = re.fullmatch(r"(\S.*?)\s{2,}is\s+(.*)", line)
            if not found:
                raise Fault(f"{line!r} is no pair")
            is_malformed = found[2].startswith("malformed")
            sections = self.malformed(found[1]) if is_malformed else self.same(found[1], found[2])
            title = f"{found[1]} is {'malformed' if is_malformed else found[2]}"
            yield Case(example.line + number, f"{plain(example.heading)}: {title}", sections)

    def malformed(self, expression: str) -> tuple[str, ...]:
        return (section("Kconfig", f"config R\n\tdef_bool {expression}\n"), fault_section("Kconfig:2: K05"))

    def same(self, left: str, right: str) -> tuple[str, ...]:
        """Both are compared for all values of three bools."""
        symbols = "".join(f'config {name}\n\tbool "{name}"\n' for name in "ABC")
        sides = f"config LEFT\n\tdef_bool {left}\nconfig RIGHT\n\tdef_bool {right}\n"
        kconfig = f"{symbols}{sides}config SAME\n\tdef_bool LEFT = RIGHT\n"
        commands = "".join(f"set A {a}\nset B {b}\nset C {c}\nshow SAME\n" for a, b, c in product("ny", repeat=3))
        replies = "ok\nok\nok\nSAME type=bool value=y vis=n can=- user=-\nok\n" * 8
        return (section("Kconfig", kconfig), *session_sections(commands, replies))


# What makes the cases of a row of a table, from its line, its cells and the example before the table.
RowCases = Callable[[Example, int, list[str], Optional[Example]], Iterator[Case]]


@dataclass(frozen=True)
class Rows:
    """A table whose rows are examples."""

    cases_of_row: RowCases

    def cases(self, example: Example, previous: Example | None) -> Iterator[Case]:
        for number, cells in enumerate(cells_of_rows(example)):
            yield from self.cases_of_row(example, example.line + 2 + number, cells, previous)


def cells_of_rows(example: Example) -> list[list[str]]:
    """The cells of the rows of a table, without its head."""
    rows = example.text.splitlines()[2:]
    return [[cell.strip().replace("\\|", "|") for cell in re.split(r"(?<!\\)\|", row)[1:-1]] for row in rows]


@dataclass(frozen=True)
class Lines:
    """A table of symbols: the lines of each, and its line in the `.config`, or none. All are one Kconfig."""

    title: str

    def cases(self, example: Example, previous: Example | None) -> Iterator[Case]:
        kconfig, config = "", ""
        for lines, wanted, *_ in cells_of_rows(example):
            if not codes(lines) or not codes(wanted) and wanted != "no line":
                raise Fault(f"{wanted!r} is no line of the `.config`, or a symbol has no lines")
            kconfig += "\n\t".join(codes(lines)) + "\n"
            config += "".join(f"{line}\n" for line in codes(wanted))
        sections = (section("Kconfig", kconfig), *session_sections("config\n", f"{config}ok\n"))
        yield Case(example.line, f"{plain(example.heading)}: {self.title}", sections)


@dataclass(frozen=True)
class Assignable:
    """A table of symbols in words, and the values that each can be given. All are one Kconfig."""

    title: str
    kconfig: str
    shown: dict[str, tuple[str, ...]]  # by the words: the lines of the symbols, as `show` has them around the values

    def cases(self, example: Example, previous: Example | None) -> Iterator[Case]:
        rows = cells_of_rows(example)
        if [words for words, _ in rows] != list(self.shown):
            raise Fault("rows of other symbols than this script has")
        lines = [line.format(plain(values)) for words, values in rows for line in self.shown[words]]
        commands = "".join(f"show {line.split()[0]}\n" for line in lines)
        replies = "".join(f"{line}\nok\n" for line in lines)
        sections = (section("Kconfig", self.kconfig), *session_sections(commands, replies))
        yield Case(example.line, f"{plain(example.heading)}: {self.title}", sections)


Entry = Union[Without, Opened, Shown, Written, Faults, Repeated, Pairs, Rows, Lines, Assignable]


def replies_of(example: Example) -> tuple[str, str]:
    """The commands on the left of an example, and the replies that its right side stands for: there is no `ok` there."""
    commands: list[str] = []
    replies: list[list[str]] = []
    for line in example.text.splitlines():
        found = re.match(r"(\S.*?)\s{2,}(\S.*)$", line)
        if line[:1] in ("", " "):
            replies[-1].append(line.strip())
        else:
            commands.append(found[1] if found else line)
            replies.append([found[2]] if found else [])
    texts = ["".join(f"{line}\n" for line in reply) for reply in replies]
    whole = [text if text.startswith("refused") else text + "ok\n" for text in texts]
    return ("".join(f"{command}\n" for command in commands), "".join(whole))


# ------------------------------------------------------------------------------------------------ rows of tables


def codes(cell: str) -> list[str]:
    return re.findall(r"`([^`]*)`", cell.partition(", where")[0])


def error_cases(files: dict[str, str]) -> RowCases:
    """Texts with an error or more, the first of these, and why it is that one or what to write instead."""

    def cases(example: Example, line: int, cells: list[str], previous: Example | None) -> Iterator[Case]:
        text, fault, since = cells[:3]
        found = re.fullmatch(r"(K\d\d) (at line|for) (\S+)|(K\d\d)", fault)
        code = re.fullmatch(r"`([^`]*)`(?: and (\d+) `(.)`)?", text)
        if not found or not code:
            raise Fault(f"line {line}: a row of another form")
        wanted = f"{found[1]} {found[3]}" if found[2] == "for" else f"Kconfig:{found[3] or 1}: {found[1] or found[4]}"
        kconfig = code[1].replace(" / ", "\n")
        sections = [section("Kconfig", kconfig if code[2] else kconfig + "\n")]
        if code[2]:
            sections.append(section("Kconfig", code[3], int(code[2])))
        sections += [section(f"file {path}", of) for path, of in files.items() if f'source "{path}"' in kconfig]
        title = f"{plain(example.heading)}: {plain(text)}: {plain(since)}"
        yield Case(line, title, (*sections, fault_section(wanted)))

    return cases


def imply_cases(example: Example, line: int, cells: list[str], previous: Example | None) -> Iterator[Case]:
    """The values of FOO, of BAR and of BAZ, which has no prompt, with the Kconfig before the table."""
    foo, bars, baz = cells
    for bar in re.findall(r"\b[nmy]\b", bars):
        commands = f"set FOO {foo}\nset BAR {bar}\nshow BAZ\n"
        replies = f"ok\nok\nBAZ type=tristate value={baz} vis=n can=- user=-\nok\n"
        sections = (section("Kconfig", WITH_MODULES + previous.text), *session_sections(commands, replies))
        yield Case(line, f"{plain(example.heading)}: FOO is {foo} and BAR is {bar}", sections)


def expression_cases(example: Example, line: int, cells: list[str], previous: Example | None) -> Iterator[Case]:
    """An expression and its value, with BUS m, or no example of a row."""
    found = re.fullmatch(r"`([^`]*)` is ([nmy])", cells[2])
    if cells[2] and not found:
        raise Fault(f"line {line}: a row of another form")
    if found:
        bus = f'{WITH_MODULES}config BUS\n\ttristate "Bus"\n'
        kconfig = f"{bus}config R\n\ttristate\n\tdefault {found[1]}\n"
        replies = f"ok\nR type=tristate value={found[2]} vis=n can=- user=-\nok\n"
        sections = (section("Kconfig", kconfig), *session_sections("set BUS m\nshow R\n", replies))
        yield Case(line, f"{plain(example.heading)}: {found[1]} is {found[2]}", sections)


def definitions_of(symbols: str, words: list[str]) -> str:
    """The definitions of the symbols that these words name."""
    return "".join(each for each in re.split(r"(?m)^(?=config )", symbols) if each and each.split()[1] in words)


def comparison_cases(symbols: str) -> RowCases:
    """Comparisons of these symbols, with one value or a value each."""

    def cases(example: Example, line: int, cells: list[str], previous: Example | None) -> Iterator[Case]:
        conditions, values = codes(cells[0]), re.findall(r"\b[ny]\b", cells[1])
        for condition, value in zip(conditions, values if len(values) > 1 else values * len(conditions)):
            defined = definitions_of(symbols, re.findall(r"\w+", condition))
            kconfig = f"{defined}config R\n\tdef_bool {condition}\n"
            replies = f"R type=bool value={value} vis=n can=- user=-\nok\n"
            sections = (section("Kconfig", kconfig), *session_sections("show R\n", replies))
            yield Case(line, f"{plain(example.heading)}: {condition} is {value}", sections)

    return cases


def form_cases(example: Example, line: int, cells: list[str], previous: Example | None) -> Iterator[Case]:
    """Lines without the form of a statement (K05), behind the lines that they need."""
    for code in codes(cells[0]):
        before = next(lines for form, lines in LINES_BEFORE if re.search(form, f"{code} {cells[0]}"))
        sections = (section("Kconfig", f"{before}{code}\n"), fault_section(f"Kconfig:{before.count(chr(10)) + 1}: K05"))
        yield Case(line, f"{plain(example.heading)}: {code}", sections)


def unfit_cases(example: Example, line: int, cells: list[str], previous: Example | None) -> Iterator[Case]:
    """Lines that do not fit a symbol of each of some types (K15)."""
    for code in codes(cells[0]):
        for kind in cells[1].split(", "):
            sections = (section("Kconfig", f'config N\n\t{kind} "n"\n\t{code}\n'), fault_section("K15 N"))
            yield Case(line, f"{plain(example.heading)}: {code} of the type {kind}", sections)


# What stands before a line of a form: the first form that fits the line with its cell counts.
LINES_BEFORE = (
    (r"of a choice$|^optional|^endchoice", 'choice\n\tprompt "c"\n'),
    (r"^endmenu", 'menu "x"\n'),
    (r"^(config|menu|source)", ""),
    (r"^range \$\(R\)", 'R := 1 5\nconfig N\n\tint "n"\n'),
    (r"", 'config N\n\tint "n"\n'),
)

# What docs/VALUES.md calls "with modules".
WITH_MODULES = "config MODULES\n\tdef_bool y\n\tmodules\n"

# The symbols of the table of values that can be given, by its words.
ASSIGNABLE_SYMBOLS = f"""{WITH_MODULES}config SM
	def_tristate m
	select F
	select G
config SY
	def_bool y
	select C
	select H
config A
	bool
config B
	bool "b"
config C
	bool "c"
config D
	tristate "d"
config E
	tristate "e" if m
config F
	tristate "f"
config G
	tristate "g" if m
config H
	tristate "h"
choice
	prompt "choice"
config I
	bool "i"
endchoice
config J
	string "j"
config K
	int "k"
config L
	hex "l"
"""
ASSIGNABLE_LINES = {
    "invisible": ("A type=bool value=n vis=n can={} user=-",),
    "bool, visible": ("B type=bool value=n vis=y can={} user=-",),
    "bool, visible, selected": ("C type=bool value=y vis=y can={} user=-",),
    "tristate, visibility y": ("D type=tristate value=n vis=y can={} user=-",),
    "tristate, visibility m": ("E type=tristate value=n vis=m can={} user=-",),
    "tristate, visibility y, m selected": ("F type=tristate value=m vis=y can={} user=-",),
    "tristate, visibility m, m selected": ("G type=tristate value=m vis=m can={} user=-",),
    "tristate, y selected": ("H type=tristate value=y vis=y can={} user=-",),
    "member of a choice, visible": ("I type=bool value=y vis=y can={} user=-",),
    "string, int, hex": (
        'J type=string value="" vis=y can={} user=-',
        "K type=int value= vis=y can={} user=-",
        "L type=hex value= vis=y can={} user=-",
    ),
}

# The symbols that the text before the tables of comparisons names.
A_IS_Y = "config A\n\tdef_bool y\n"
INTS_HEXES_AND_STRINGS = """config I
	int
	default 10
config J
	int
	default 9
config P
	int
	default 007
config E
	int
config H
	hex
	default 1f
config S
	string
	default "10"
config T
	string
	default "9"
"""

# ------------------------------------------------------------------------------------------------ the documents

RULES = Without("a table of rules in words")
KCONFIG_OF_NEXT = Without("the Kconfig of the example behind it")
BOARD = """HOST type=string value="board" vis=y can=- user=-
CPUS type=int value=4 vis=y can=- user=-
BASE type=hex value=0x8000 vis=y can=- user=-
LAST type=hex value=0xffff vis=n can=- user=-
ok
"""

COMPARISONS: dict[tuple[str, int], Entry] = {
    ("Comparisons", 1): RULES,
    ("Comparisons", 2): Rows(comparison_cases(A_IS_Y)),
    ("Comparisons", 3): Rows(comparison_cases(INTS_HEXES_AND_STRINGS)),
}

VALUES: dict[tuple[str, int], Entry] = {
    ("In short", 1): Without("a formula"),
    ("In short", 2): RULES,
    ("Expressions", 1): Rows(expression_cases),
    ("Conditions", 1): RULES,
    ("Conditions", 2): Opened(
        "a symbol under an if, a menu and its own conditions, of which nothing defines one",
        "show NET\nconfig\n",
        "NET type=bool value=n vis=n can=- user=-\nok\nok\n",
    ),
    ("Conditions", 3): Without("the conditions of the Kconfig before it: no command shows a condition"),
    ("Visibility", 2): Shown("a bool and a tristate under a bus that is a module", WITH_MODULES),
    ("Visibility", 3): Opened(
        "A is y by default, and visible if EXPERT or Y is not n",
        "show A\nset EXPERT y\nshow A\nset EXPERT n\nset Y y\nshow A\n",
        "A type=bool value=y vis=n can=- user=-\nok\nok\nA type=bool value=y vis=y can=n,y user=-\nok\n"
        "ok\nok\nA type=bool value=y vis=y can=n,y user=-\nok\n",
        behind='config EXPERT\n\tbool "expert"\nconfig Y\n\tbool "y"\n',
    ),
    ("Defaults", 2): Shown("the first active default counts, even if it gives n"),
    ("Defaults", 4): Shown("a default above what the user can set", WITH_MODULES),
    ("Imply", 3): KCONFIG_OF_NEXT,
    ("Imply", 4): Rows(imply_cases),
    ("Strings", 2): Shown("user values are verbatim, and shown in quotes"),
    ("Numbers", 2): Shown("an int and its range"),
    ("Numbers", 5): Lines("values of ints and hexes without a user value"),
    ("Numbers", 7): Shown("a hex and its range"),
    ("Assignable values", 1): Assignable("each row of the table", ASSIGNABLE_SYMBOLS, ASSIGNABLE_LINES),
    ("Reasons", 1): Without("what kconf why says of Kconfigs in words"),
    ("Reasons in short", 1): Without("what kconf check and kconf merge say of Kconfigs in words"),
    ("Written or not", 1): RULES,
    ("Written or not", 2): Lines("symbols with a line and without one"),
    ("The text of the `.config`", 1): KCONFIG_OF_NEXT,
    ("The text of the `.config`", 2): Written(),
    ("What uses what, and loops", 1): RULES,
    ("What uses what, and loops", 2): Without("Kconfigs in words"),
}

CHOICES: dict[tuple[str, int], Entry] = {
    ("Mode and selection", 2): Shown("the mode, the chosen member, the defaults, and what a member selects"),
    ("Optional choices", 2): Shown("a choice that is on once a member is chosen"),
}

LANGUAGE: dict[tuple[str, int], Entry] = {
    ("Files and lines", 1): Opened(
        "a line that goes on over a line end",
        "show A\nset PCI y\nshow A\nset NET y\nshow A\n",
        "A type=bool value=n vis=n can=- user=-\nok\nok\nA type=bool value=n vis=n can=- user=-\nok\n"
        "ok\nA type=bool value=n vis=y can=n,y user=-\nok\n",
        before='config A\n\tbool "a"\n',
        behind='config NET\n\tbool "net"\nconfig PCI\n\tbool "pci"\n',
    ),
    ("Help texts", 1): Opened(
        "a default after a help text", "show NET\n", "NET type=bool value=y vis=y can=n,y user=-\nok\n"
    ),
    ("Variables", 1): RULES,
    ("Variables", 2): Opened(
        "a path by variables, of which one is passed in",
        "show NET\n",
        "NET type=bool value=n vis=y can=n,y user=-\nok\n",
        files={"drivers/net/Kconfig.arm": 'config NET\n\tbool "Network"\n'},
        variables="ARCH=arm\n",
    ),
    ("Statements", 1): RULES,
    ("Attributes", 1): RULES,
    ("Attributes", 2): Opened(
        "a symbol with attributes of most kinds",
        "show USB\nset PCI y\nshow USB\nshow CRC\n",
        "USB type=tristate value=n vis=n can=- user=-\nok\nok\nUSB type=tristate value=y vis=n can=- user=-\nok\n"
        "CRC type=bool value=y vis=n can=- user=-\nok\n",
        behind='config PCI\n\tbool "PCI"\nconfig CRC\n\tbool\n',
    ),
    ("Strings and numbers", 1): RULES,
    ("Strings and numbers", 2): Opened(
        "a string, ints and hexes",
        "list\nset CPUS 65\nshow CPUS\n",
        f"{BOARD}ok\nCPUS type=int value=4 vis=y can=- user=65\nok\n",
    ),
    ("Strings and numbers", 3): RULES,
    ("Choices", 1): Opened(
        "a choice under a clock",
        "choices\nset CLOCK y\nchoices\nset EXPERT y\nset CRAZY y\nchoices\n",
        'choice 0 "Speed" mode=n sel=- user=-\nok\nok\nchoice 0 "Speed" mode=y sel=FAST user=-\nok\n'
        'ok\nok\nchoice 0 "Speed" mode=y sel=CRAZY user=CRAZY\nok\n',
        behind='config CLOCK\n\tbool "clock"\nconfig EXPERT\n\tbool "expert"\n',
    ),
    ("What ends an entry", 1): Opened(
        "the end of a file ends an entry, and a variable does not",
        fault="Kconfig:6: K06",
        files={"default": "default n\n"},
    ),
    ("Expressions", 1): Without("a grammar"),
    ("Expressions", 2): Pairs(),
    ("Terms", 1): RULES,
    ("Terms", 2): Opened(
        "a symbol, a text and words",
        "list\n",
        "".join(
            f"{name} type=bool value={value} vis=n can=- user=-\n"
            for name, value in (("NET", "y"), ("A", "y"), ("B", "n"), ("C", "y"))
        )
        + "ok\n",
    ),
    ("The term m alone", 1): Opened(
        "without modules a dependency on m hides a symbol",
        "show DRIVER\n",
        "DRIVER type=tristate value=n vis=n can=- user=-\nok\n",
    ),
    ("Several definitions", 1): Opened(
        "dependencies hold for their definition alone",
        "set PCI y\nshow NET\nset PCI n\nset USB y\nshow NET\n",
        "ok\nNET type=bool value=n vis=y can=n,y user=-\nok\nok\nok\nNET type=bool value=y vis=n can=- user=-\nok\n",
        behind='config PCI\n\tbool "PCI"\nconfig USB\n\tbool "USB"\n',
    ),
}

ERRORS: dict[tuple[str, int], Entry] = {
    ("In short", 1): Without("the words of the errors, which tools/check_explanations.py compares"),
    ("What a message of `--explain` names", 1): Without("a message of --explain, which the cases `explained-*` have"),
    ("K01: a limit is passed", 1): Repeated(
        "a variable that doubles one of 40,000 bytes",
        "A := $(B)$(B)",
        (
            section("Kconfig", "B := "),
            section("Kconfig", "x", 40_000),
            section("Kconfig", "\nA := $(B)$(B)\n"),
            fault_section("Kconfig:2: K01"),
        ),
    ),
    ("K01: a limit is passed", 2): Repeated(
        "65 blocks in one another", "if y", (section("Kconfig", "if y\n", 65), fault_section("Kconfig:65: K01"))
    ),
    ("K02: a character that is not allowed", 1): Faults(("Kconfig:1: K02",)),
    ("K03: a quote that its line does not close", 1): Faults(("Kconfig:2: K03",)),
    ("K08: a file that is missing", 1): Faults(("Kconfig:1: K08",)),
    ("K09: a file within itself", 1): Faults(("b:1: K09",), files={"b": 'source "b"\n'}),
    ("K10: a dollar that begins no reference", 1): Faults(("Kconfig:1: K10", "Kconfig:1: K10"), by_line=True),
    ("K11: a variable that its own expansion needs", 1): Faults(("Kconfig:3: K11",)),
    ("K04: no such statement", 1): Faults(("Kconfig:1: K04",) * 3, by_line=True),
    ("K05: no statement has this form", 1): Rows(form_cases),
    ("K06: an attribute without an entry", 1): Rows(error_cases({"net": 'config NET\n\tbool "Network"\n'})),
    ("K07: a block closed wrongly, or not at all", 1): Rows(error_cases({})),
    ("K20: a form that is unsupported", 1): Faults(("Kconfig:1: K20",) * 3, by_line=True),
    ("K20: a form that is unsupported", 2): RULES,
    ("Warnings", 1): Without("the words of the warnings, which tools/check_explanations.py compares"),
    ("Findings of `check`", 1): Without("findings in words, which the cases `check` have"),
    ("Which error is the first", 1): Rows(error_cases({})),
}

ERRORS_OF_SYMBOLS: dict[tuple[str, int], Entry] = {
    ("K12: a symbol without a type", 1): Faults(("K12 A",)),
    ("K13: two types", 1): Faults(("K13 A",)),
    ("K14: two prompts in one definition", 1): Faults(("K14 A",)),
    ("K15: a default or a range that does not fit", 1): Rows(unfit_cases),
    ("K16: a select or an imply that does not fit", 1): Rows(error_cases({})),
    ("K18: modules elsewhere", 1): Rows(error_cases({})),
    ("K17: a choice, or a member of one, is at fault", 1): Faults(("Kconfig:1: K17",)),
    ("K17: a choice, or a member of one, is at fault", 2): RULES,
    ("K19: a loop", 1): Faults(("loop: A B",)),
    ("K19: a loop", 2): Without("Kconfigs in words"),
}

# The documents, each with the files of its cases.
DOCUMENTS = {
    "VALUES": {"document-values": VALUES, "document-comparisons": COMPARISONS, "document-choices": CHOICES},
    "LANGUAGE": {"document-language": LANGUAGE},
    "ERRORS": {"document-faults": ERRORS, "document-faults-symbols": ERRORS_OF_SYMBOLS},
}

# ------------------------------------------------------------------------------------------------ the comparison


def is_commands(example: Example) -> bool:
    """Whether an example has commands of a session with their answers."""
    command = r"(set|unset|show) |(reset|list|choices|config)(  |\n)"
    return example.kind == "indented" and bool(re.match(command, example.text))


def entry_of(entries: dict[tuple[str, int], Entry], three: tuple[Example | None, Example, Example | None]) -> Entry:
    """The entry of the second of three examples. A Kconfig and the commands behind it need none."""
    previous, example, next_one = three
    if example.key in entries:
        return entries[example.key]
    if example.kind == "fenced" and next_one and is_commands(next_one):
        return KCONFIG_OF_NEXT
    if is_commands(example) and previous and previous.kind == "fenced":
        return Shown()
    raise Fault(f"example {example.number} of {example.heading!r} has no entry in this script")


def cases_of(name: str, text: str) -> dict[str, list[Case]]:
    """The cases of a document, by their files."""
    files = {key: file for file, entries in DOCUMENTS[name].items() for key in entries}
    entries = {key: entry for part in DOCUMENTS[name].values() for key, entry in part.items()}
    cases: dict[str, list[Case]] = {file: [] for file in DOCUMENTS[name]}
    examples = list(Reader(text).examples())
    missing = entries.keys() - {example.key for example in examples}
    if missing:
        raise Fault(f"docs/{name}.md: no examples {sorted(missing)}")
    for previous, example, next_one in zip([None, *examples], examples, [*examples[1:], None]):
        try:
            file = files.get(example.key, next(iter(cases)))
            cases[file] += entry_of(entries, (previous, example, next_one)).cases(example, previous)
        except Fault as fault:
            raise Fault(f"docs/{name}.md:{example.line}: {fault}") from fault
    return cases


def file_text(name: str, cases: list[Case]) -> str:
    intro = f"Examples of docs/{name}.md. Change them there, and have tools/document_cases.py write this file anew.\n"
    return "\n".join([intro, *(case.text() for case in cases)])


def first_difference(name: str, path: Path, cases: list[Case]) -> str | None:
    """Names the first case that the file has otherwise."""
    found = path.read_text(encoding="utf-8") if path.exists() else ""
    if found == file_text(name, cases):
        return None
    there = set(re.split(r"(?m)^(?==== )", found))
    for case in cases:
        if not there & {case.text(), case.text() + "\n"}:
            return f"docs/{name}.md:{case.line}: not so in {path.relative_to(ROOT)}: {case.title}"
    return f"{path.relative_to(ROOT)}: it has cases that are not in docs/{name}.md, or has them in another order"


def compare(name: str, is_written: bool) -> list[str]:
    """Compares a document with its files of cases, and returns what differs."""
    try:
        files = cases_of(name, (ROOT / "docs" / f"{name}.md").read_text(encoding="utf-8"))
    except Fault as fault:
        return [str(fault)]
    differences = []
    for file, cases in files.items():
        path = DATA / f"{file}.cases"
        if is_written:
            path.write_text(file_text(name, cases), encoding="utf-8")
        differences.append(first_difference(name, path, cases))
        print(f"{file}.cases: {len(cases)}")
    return [difference for difference in differences if difference]


def main() -> int:
    parser = argparse.ArgumentParser(description="Compares the examples of the documents with their cases.")
    parser.add_argument("--write", action="store_true", help="write the cases")
    options = parser.parse_args()
    differences = [difference for name in DOCUMENTS for difference in compare(name, options.write)]
    print("\n".join(differences), end="\n" if differences else "")
    return 1 if differences else 0


if __name__ == "__main__":
    sys.exit(main())
