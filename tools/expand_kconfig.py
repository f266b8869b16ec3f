#!/usr/bin/env python3
"""Turns a Kconfig tree with macro functions into one that kconf reads.

    tools/expand_kconfig.py [--root FOLDER] [--variables FILE] [--words FILE] [--notes FILE] [--depends FILE]
                            [--expand] [--environment] KCONFIG OUT [NAME=VALUE]...

KCONFIG and all files that it sources are read in FOLDER (or the working directory) and written to the same paths below
OUT. Run kconf in OUT, which must not be there, be empty, or have what an earlier run wrote: then files that this run
does not write are removed, and those whose text is the same keep their time. The file OUT/.expanded has their paths,
and the time of the last run; --depends writes a rule for make to FILE, by which it depends on the files that were read.

Macro functions are run, and variables that files define are put in place; so are `$NAME`, `${NAME}` of words NAME=VALUE.
Paths, prompts and titles get their quotes. Each line keeps its number (except in files with def_int, def_hex or
def_string), so that a fault that kconf reports is at the same line of the tree. What is changed in its meaning, or could
be, is noted on standard error with its file and line. On standard output are the words NAME=VALUE that kconf needs, as
a shell reads them; with --words they are in FILE, one a line, as `kconf --variables FILE` reads them.

Commands of $(shell,..) are run in FOLDER, with the words NAME=VALUE in their environment. Where a line can't be expanded,
or a command fails, the variables of that line that nobody gave are named. The status is 0, 1 where a line can't be
expanded or a file can't be read or written, and 2 for a usage error. docs/TREES.md has examples.
"""

import argparse
import glob
import re
import shlex
import sys
from pathlib import Path, PurePosixPath

from kconfig_lines import ASSIGNS, HELP, Logical, Token, Tokens, logical_lines
from kconfig_macros import Fault, Macros, Place
from kconfig_output import LIST, can_be_written, rule, write_text, write_tree
from kconfig_rewrite import EMPTY_IS_ZERO, PROMPTS_ARE_OPEN, Renames, Statement, source_of_conf
from kconfig_rewrite import count_empty_as_zero, drop_defconfig_list, open_prompts, rewrite_choices, rewrite_statement

SOURCES = ("source", "rsource", "osource", "orsource")
MOST_OPEN = 64


def read_lines(path: Path, notes: list[str]) -> list[str]:
    """The lines of a file. Bytes that are no UTF-8 are read as Latin-1, which is noted."""
    data = path.read_bytes()
    try:
        text = data.decode()
    except UnicodeDecodeError:
        notes.append(f"{path}:0: no UTF-8: read as Latin-1")
        text = data.decode("latin-1")
    lines = text.split("\n")
    return [line.removesuffix("\r") for line in (lines[:-1] if lines[-1] == "" else lines)]


class Expander:
    """Reads a tree, and keeps the files that are to be written."""

    def __init__(self, root: Path, macros: Macros, stays: bool) -> None:
        self.root = root
        self.macros = macros
        self.stays = stays
        self.notes: list[str] = []
        self.written: dict[str, str] = {}  # the text of each path
        self.read: dict[Path, None] = {}  # the files that were read, in their order
        self.renames = Renames()
        conf = source_of_conf(root)
        self.empty_is_zero = EMPTY_IS_ZERO in conf
        self.prompts_are_open = PROMPTS_ARE_OPEN in conf
        self.needed: set[str] = set()  # the words NAME=VALUE that a reference stands for
        self.open: list[str] = []
        self.choice_names: dict[str, Place] = {}

    def expand_file(self, path: str, place: Place) -> str:
        """Reads a file and all that it sources. Returns the path under which it is written."""
        if path in self.open or len(self.open) == MOST_OPEN:
            raise place.fault(f"{path} is sourced within itself, or too deeply")
        self.open.append(path)
        statements = [self.expand_line(logical, Place(path, logical.line))
                      for logical in logical_lines(self.lines_of(path, place))]
        drop_defconfig_list(statements)
        opened = list(open_prompts(statements)) if self.prompts_are_open else []
        for statement in [*opened, *rewrite_choices(statements)]:
            self.notes += statement.notes
        self.open.pop()
        text = "".join(statement.written + "\n" for statement in statements)
        return self.keep(path, text)

    def lines_of(self, path: str, place: Place) -> list[str]:
        self.read[self.root / path] = None
        try:
            return read_lines(self.root / path, self.notes)
        except OSError as fault:
            raise place.fault(f"{path} can't be read: {fault.strerror}") from fault

    def keep(self, path: str, text: str) -> str:
        """Keeps a text under its path, or under one with a number where the path has another text."""
        number, name = 1, path
        while self.written.get(name, text) != text:
            number += 1
            name = f"{path}.{number}"
        self.written[name] = text
        return name

    def expand_line(self, logical: Logical, place: Place) -> Statement:
        """The statement of a logical line. A fault of it names the variables of the line that are not given."""
        self.macros.absent = []
        try:
            return self.statement(logical, place)
        except RecursionError as fault:
            raise place.fault("an expansion nests too deeply") from fault
        except Fault as fault:
            if fault.is_whole:
                raise
            whole = Fault("; ".join(filter(None, [str(fault).removesuffix("."), self.macros.absent_words()])))
            whole.is_whole = True
            raise whole from fault

    def statement(self, logical: Logical, place: Place) -> Statement:
        """The statement of a logical line, as it is written for kconf."""
        if logical.is_help or (match := HELP.fullmatch(logical.text)) and match[1] in ("help", "---help---"):
            return Statement(place, [], logical.text, logical)
        if match:
            return Statement(place, [], "help", logical)
        if ASSIGNS.match(logical.text):
            if not self.macros.read_assignment(logical.text, place):
                raise place.fault("no such statement")
            return Statement(place, [], logical.keep(""), logical)
        reader = Tokens(logical.text, place, self.macros, self.stays)
        tokens = reader.all()
        statement = Statement(place, tokens, "", logical, reader.notes)
        if tokens and not tokens[0].has_reference and tokens[0].text in SOURCES and len(tokens) == 2:
            statement.written = self.source(tokens, logical, place)
        else:
            if self.empty_is_zero:
                count_empty_as_zero(statement)
            rewrite_statement(statement, self.choice_names)
            self.renames.see(statement)
        self.needed |= reader.needed if "$(" in statement.written else set()
        self.notes += statement.notes
        return statement

    def source(self, tokens: list[Token], logical: Logical, place: Place) -> str:
        """The `source` line for a path, after the file is read."""
        word, path = tokens[0].text, tokens[1].text
        if word in ("rsource", "orsource"):
            path = str(PurePosixPath(place.path).parent / path)
        path = self.inside(path, place)
        found = self.matches(path)
        if not found and word in ("osource", "orsource"):
            return logical.keep("")
        if found != [path]:
            return logical.keep(self.source_of_matches(path, found, place))
        name = self.expand_file(path, place)
        if word != "source" or name != tokens[1].text or tokens[1].kind != "quoted":
            return logical.keep(f'source "{name}"')
        if all(token.is_kept() for token in tokens):
            return "\n".join(logical.lines)
        return logical.keep(f"source {tokens[1].written}")

    def inside(self, path: str, place: Place) -> str:
        """The path relative to the root."""
        for root in (str(self.root), str(self.root.resolve())):
            if path.startswith(root.rstrip("/") + "/"):
                path = path[len(root.rstrip("/")) + 1 :]
        if path.startswith("/") or ".." in PurePosixPath(path).parts:
            raise place.fault(f"{path} is outside of the tree")
        return str(PurePosixPath(path))

    def matches(self, path: str) -> list[str]:
        if (self.root / path).is_file() or not glob.has_magic(path):
            return [path] if (self.root / path).is_file() else []
        found = glob.glob(f"{glob.escape(str(self.root))}/{path}")
        return sorted(str(Path(name).relative_to(self.root)) for name in found)

    def source_of_matches(self, path: str, found: list[str], place: Place) -> str:
        """A `source` line of a file that sources what a pattern matches, as Kconfiglib reads it."""
        if not found:
            raise place.fault(f"{path} can't be read")
        lines = "".join(f'source "{self.expand_file(match, place)}"\n' for match in found)
        name = self.keep(f"{PurePosixPath(place.path)}.sources", lines)
        self.notes.append(f"{place.path}:{place.line}: {path} is read as a pattern of {len(found)} files")
        return f'source "{name}"'


def variables_of(path: Path) -> list[str]:
    """The lines NAME=VALUE of a file of variables, without lines of blanks and those that begin with `#`."""
    lines = [line.removesuffix("\r") for line in path.read_text(encoding="utf-8").split("\n")]
    return [line for line in lines if line.strip(" \t") and not line.startswith("#")]


def parse_words() -> argparse.Namespace:
    parser = argparse.ArgumentParser(description=__doc__, formatter_class=argparse.RawDescriptionHelpFormatter)
    parser.add_argument("--root", type=Path, default=Path("."), metavar="FOLDER", help="the folder of the tree")
    parser.add_argument("--variables", type=Path, metavar="FILE", help="NAME=VALUE, one a line, before the words")
    parser.add_argument("--words", type=Path, metavar="FILE", help="write the words for kconf to FILE, one a line")
    parser.add_argument("--expand", action="store_true", help="put NAME=VALUE in place as well: kconf needs no words")
    parser.add_argument("--environment", action="store_true", help="let references see the environment as well")
    parser.add_argument("--notes", type=Path, metavar="FILE", help="write the notes to FILE")
    parser.add_argument("--depends", type=Path, metavar="FILE", help=f"write the rule for make of OUT/{LIST}")
    parser.add_argument("kconfig", metavar="KCONFIG", help="the top file, from FOLDER")
    parser.add_argument("out", type=Path, metavar="OUT", help="the folder to write to")
    parser.add_argument("given", nargs="*", default=[], metavar="NAME=VALUE", help="variables of the tree")
    arguments = parser.parse_args()
    try:
        arguments.given = (variables_of(arguments.variables) if arguments.variables else []) + arguments.given
    except (OSError, ValueError) as fault:
        parser.error(f"{arguments.variables} can't be read: {fault}")
    for word in arguments.given:
        if not re.match(r"[A-Za-z0-9_][A-Za-z0-9_-]*=", word):
            parser.error(f"a variable is given as NAME=VALUE, and not as {word!r}")
    if not arguments.root.is_dir():
        parser.error(f"{arguments.root} is no folder")
    if not can_be_written(arguments.out):
        parser.error(f"{arguments.out} is there, and is neither an empty folder nor one that an earlier run wrote")
    return arguments


def counted(count: int, what: str) -> str:
    return f"{count} {what}" if count == 1 else f"{count} {what}s"


def write_words(arguments: argparse.Namespace, words: list[str]) -> None:
    """Writes the words that kconf needs: for a shell to standard output, or a line each to a file."""
    if arguments.words:
        for word in words:
            if "\n" in word:
                raise ValueError(f"{word.split('=')[0]} has a line end, which --words can't write")
        write_text(arguments.words, "".join(word + "\n" for word in words))
    else:
        print(" ".join(map(shlex.quote, words)))


def expand(arguments: argparse.Namespace) -> None:
    """Expands the tree, writes it, and reports. A fault leaves nothing written."""
    passed = dict(word.split("=", 1) for word in arguments.given)
    macros = Macros(passed, str(arguments.root), arguments.environment)
    expander = Expander(arguments.root, macros, stays=not arguments.expand)
    expander.expand_file(arguments.kconfig, Place(arguments.kconfig, 0))
    write_tree(arguments.out, expander.written)
    if arguments.depends:
        read = [*expander.read, *([arguments.variables] if arguments.variables else [])]
        write_text(arguments.depends, rule(arguments.out, read))
    notes_once = list(dict.fromkeys([*expander.notes, *expander.renames.notes()]))
    notes = "".join(note + "\n" for note in notes_once)
    if arguments.notes:
        write_text(arguments.notes, notes)
    else:
        sys.stderr.write(notes)
    counts = (len(expander.written), "file"), (macros.commands, "command"), (len(notes_once), "note")
    print(", ".join(counted(*count) for count in counts), file=sys.stderr)
    write_words(arguments, [f"{name}={passed[name]}" for name in passed if name in expander.needed])


def main() -> int:
    arguments = parse_words()
    try:
        expand(arguments)
    except Fault as fault:
        print(fault, file=sys.stderr)
    except (OSError, ValueError) as fault:
        print(f"expand_kconfig.py: {fault}", file=sys.stderr)
    except KeyboardInterrupt:
        return 130
    else:
        return 0
    return 1


if __name__ == "__main__":
    sys.exit(main())
