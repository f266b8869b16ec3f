"""Logical lines of a Kconfig file, their tokens, and how tokens are written so that kconf reads them."""

from __future__ import annotations

import re
from dataclasses import dataclass
from typing import Iterator

from kconfig_macros import Macros, Place, end_of_reference

WORD_CHARACTERS = frozenset("ABCDEFGHIJKLMNOPQRSTUVWXYZabcdefghijklmnopqrstuvwxyz0123456789_./-")
OPERATORS = ("&&", "||", "!=", "<=", ">=", "!", "=", "<", ">", "(", ")")
HELP = re.compile(r"[ \t]*(-*help-*)[ \t]*(#.*)?")
# A line that assigns a variable, or begins with a reference, so that it assigns one or has no effect but that of functions.
ASSIGNS = re.compile(r"[ \t]*([A-Za-z0-9_-]+[ \t]*(=|:=|\+=)|[A-Za-z0-9_-]*\$\()")
ENVIRONMENT_NAME = re.compile(r"[A-Za-z_][A-Za-z0-9_]*|\{[A-Za-z_][A-Za-z0-9_]*\}")


@dataclass
class Token:
    """A token as it is written for kconf, and its text with all references expanded."""

    kind: str  # "word", "quoted" or "operator"
    text: str
    written: str
    has_reference: bool = False
    raw: str = ""  # as it stands in the file

    def is_kept(self) -> bool:
        """Whether kconf reads the token as it stands in the file."""
        return "$" not in self.raw or self.raw == self.written

    def is_word(self, *texts: str) -> bool:
        return self.kind == "word" and not self.has_reference and self.text in texts


@dataclass
class Logical:
    """A logical line: what kconf is to read in its place, and the number of lines that it took."""

    line: int
    text: str
    lines: list[str]  # those of the file, which are joined
    is_help: bool = False  # a line of a help text, which is copied

    def keep(self, text: str) -> str:
        """The text, with empty lines behind it so that the numbers of all later lines remain."""
        return text + "\n" * (len(self.lines) - 1)


def column(line: str) -> int:
    """The indentation of a line."""
    expanded = line.expandtabs(8)
    return len(expanded) - len(expanded.lstrip(" "))


def help_end(lines: list[str], at: int) -> int:
    """The place behind the help text whose first line is at `at`."""
    first = at
    while first < len(lines) and not lines[first].strip():
        first += 1
    if first == len(lines) or column(lines[first]) == 0:
        return first
    end = first
    while end < len(lines) and (not lines[end].strip() or column(lines[end]) >= column(lines[first])):
        end += 1
    return end


def logical_lines(lines: list[str]) -> Iterator[Logical]:
    """The logical lines of a file. A help text is one of them, behind the line `help`."""
    at = 0
    while at < len(lines):
        begin, text = at, lines[at]
        at += 1
        while text.endswith("\\"):
            text = text[:-1] + (lines[at] if at < len(lines) else "")
            at += 1
        at = min(at, len(lines))
        yield Logical(begin + 1, text, lines[begin:at])
        if HELP.fullmatch(text) and (end := help_end(lines, at)) > at:
            yield Logical(at + 1, "\n".join(lines[at:end]), lines[at:end], is_help=True)
            at = end


def quote(text: str) -> str:
    """A text in quotes, as kconf reads it back."""
    return '"' + re.sub(r'(["\\$])', r"\\\1", text) + '"'


class Tokens:
    """Cuts a logical line into tokens, as conf does, and notes what kconf would refuse."""

    def __init__(self, line: str, place: Place, macros: Macros, stays: bool) -> None:
        self.line = line
        self.place = place
        self.macros = macros
        self.stays = stays  # whether references to words NAME=VALUE stay
        self.notes: list[str] = []
        self.needed: set[str] = set()  # the names of references that stay
        self.at = 0

    def note(self, text: str) -> None:
        self.notes.append(f"{self.place.path}:{self.place.line}: {text}")

    def all(self) -> list[Token]:
        tokens = []
        while self.at < len(self.line) and self.line[self.at] != "#":
            begin = self.at
            if token := self.next():
                token.raw = self.line[begin : self.at]
                tokens.append(token)
        return tokens

    def next(self) -> Token | None:
        """The token at this place. None: there is a blank, or a character that is dropped."""
        character = self.line[self.at]
        if character in "\"'":
            return self.quoted()
        if character in WORD_CHARACTERS or character == "$":
            return self.word()
        if operator := next((o for o in OPERATORS if self.line.startswith(o, self.at)), None):
            self.at += len(operator)
            return Token("operator", operator, operator)
        self.at += 1
        if character not in " \t":
            self.note(f"`{character}` is dropped, as conf ignores it")
        return None

    def reference(self) -> tuple[str, str]:
        """The text of the reference at this place, and how it is written: `$(NAME)` where it stays, else empty."""
        clause_end = end_of_reference(self.line, self.at + 2)
        name = self.line[self.at + 2 : clause_end]
        stays = self.stays and self.macros.is_passed(name)
        self.needed.update([name] if stays else [])
        text, self.at = self.macros.expand_reference(self.line, self.at, self.place)
        return text, f"$({name})" if stays else ""

    def word(self) -> Token:
        texts, written, has_reference = [], [], False
        while self.at < len(self.line):
            if self.line.startswith("$(", self.at):
                text, reference = self.reference()
                has_reference = True
                texts.append(text)
                written.append(reference or text)
            elif self.line[self.at] in WORD_CHARACTERS or self.line[self.at] == "$":
                text, reference = self.plain_dollar() if self.line[self.at] == "$" else (self.line[self.at], "")
                has_reference |= bool(reference)
                self.at += not reference
                texts.append(text)
                written.append(reference or text)
            else:
                break
        return self.finished_word("".join(texts), "".join(written), has_reference)

    def finished_word(self, text: str, written: str, has_reference: bool) -> Token:
        if "$(" in written or (text and set(text) <= WORD_CHARACTERS and not (has_reference and text == "if")):
            return Token("word", text, written, has_reference)
        if not text:
            raise self.place.fault("a word that expands to nothing")
        self.note(f"the word {text!r} is put into quotes")
        return Token("word", text, quote(text), True)

    def plain_dollar(self) -> tuple[str, str]:
        """`$NAME` of a word NAME=VALUE, as older trees have it, moves on behind it; else a plain dollar stays."""
        match = ENVIRONMENT_NAME.match(self.line, self.at + 1)
        name = match[0].strip("{}") if match else ""
        if not self.macros.is_passed(name):
            return "$", ""
        self.at = match.end()
        value = self.macros.passed[name]
        self.needed.update([name] if self.stays else [])
        return value, f"$({name})" if self.stays else value

    def quoted(self) -> Token:
        mark, texts, written = self.line[self.at], [], []
        self.at += 1
        while self.at < len(self.line) and self.line[self.at] != mark:
            text, reference = self.quoted_part()
            texts.append(text)
            written.append(reference or quote(text)[1:-1])
        if self.at == len(self.line):
            self.note("a quote that its line does not close is closed at its end, as conf does")
        self.at += 1
        return Token("quoted", "".join(texts), '"' + "".join(written) + '"')

    def quoted_part(self) -> tuple[str, str]:
        if self.line.startswith("$(", self.at):
            return self.reference()
        if self.line[self.at] == "$":
            text, reference = self.plain_dollar()
            if not reference:
                self.at += 1
            return text, reference if reference.startswith("$(") else ""
        if self.line[self.at] == "\\":
            self.at += 1
        text = self.line[self.at : self.at + 1]
        self.at += 1
        return text, ""
