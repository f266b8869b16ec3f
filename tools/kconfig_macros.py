"""The macro language of Kconfig: variables, references and functions, as kconfig-macro-language.rst has them.

Where that document leaves something open, it is as in Kconfiglib 14: how often a function may call itself, that a name
of digits is an argument, that a variable on the left of an assignment may have references.
"""

from __future__ import annotations

import os
import re
import subprocess
import sys
from dataclasses import dataclass, field
from typing import Callable

MOST_CALLS = 100  # of one function that are open at once
NOT_RUN = (126, 127)  # the statuses of a shell that can't run a command

# What stands before the operator of an assignment, and the operator with its value.
NAME_PART = re.compile(r"[A-Za-z0-9_-]*")
ASSIGNMENT = re.compile(r"[ \t]*(=|:=|\+=)[ \t]*(.*?)[ \t]*", re.DOTALL)
PLAIN_NAME = re.compile(r"[A-Za-z0-9_-]+")


class Fault(Exception):
    """A line that can't be expanded. Its text begins with the path and the number of the line."""

    is_whole = False  # whether the text says all that is known, also which variables are not given


@dataclass(frozen=True)
class Place:
    """The path of a file, as it is sourced, and the number of a line."""

    path: str
    line: int

    def fault(self, text: str) -> Fault:
        return Fault(f"{self.path}:{self.line}: {text}")


@dataclass
class Variable:
    """What an assignment has made."""

    value: str
    is_recursive: bool
    absent: list[str] = field(default_factory=list)  # what was not given when the value was expanded
    open_expansions: int = 0


def end_of_reference(text: str, begin: int) -> int | None:
    """The place of the `)` that closes the reference whose `$(` ends before begin. None: there is no such `)`."""
    depth = 0
    for at in range(begin, len(text)):
        if text[at] == "(":
            depth += 1
        elif text[at] == ")":
            if depth == 0:
                return at
            depth -= 1
    return None


def split_arguments(clause: str) -> list[str]:
    """The parts of `name,argument,argument`: commas inside parentheses don't separate."""
    parts, depth, begin = [], 0, 0
    for at, character in enumerate(clause):
        depth += (character == "(") - (character == ")")
        if character == "," and depth == 0:
            parts.append(clause[begin:at])
            begin = at + 1
    return [*parts, clause[begin:]]


@dataclass
class Macros:
    """The variables that stand at a line, and the functions."""

    passed: dict[str, str]  # the words NAME=VALUE
    folder: str = "."  # where commands are run
    reads_environment: bool = False
    variables: dict[str, Variable] = field(default_factory=dict)
    commands: int = 0  # how many were run
    absent: list[str] = field(default_factory=list)  # the names on this line that no file defines and nobody gave
    reported: set[str] = field(default_factory=set)  # those that a message has named

    def is_passed(self, name: str) -> bool:
        """Whether a reference to the name has the text of a word NAME=VALUE."""
        return name in self.passed and name not in self.variables and name not in FUNCTIONS

    def add_absent(self, names: list[str]) -> None:
        self.absent += [name for name in names if name not in self.absent]

    def absent_words(self) -> str:
        """Which variables of this line are not given, and how to give them. Empty where all are."""
        is_or_are = "is" if len(self.absent) == 1 else "are"
        words = " ".join(f"{name}=VALUE" for name in self.absent)
        return f"{' and '.join(self.absent)} {is_or_are} not given: pass {words}" if self.absent else ""

    def expand(self, text: str, place: Place, arguments: list[str] | None = None) -> str:
        """The text with all its references expanded. What an expansion gives is not expanded again."""
        parts, at = [], 0
        while (begin := text.find("$(", at)) >= 0:
            expansion, end = self.expand_reference(text, begin, place, arguments)
            parts += [text[at:begin], expansion]
            at = end
        return "".join(parts) + text[at:]

    def expand_reference(
        self, text: str, begin: int, place: Place, arguments: list[str] | None = None
    ) -> tuple[str, int]:
        """What the reference gives whose `$(` is at begin, and the place behind its `)`."""
        end = end_of_reference(text, begin + 2)
        if end is None:
            raise place.fault(f"a reference without its `)`: {text[begin:]}")
        return self.expand_clause(text[begin + 2 : end], place, arguments or []), end + 1

    def expand_clause(self, clause: str, place: Place, arguments: list[str]) -> str:
        """What `name,argument,argument` gives; arguments are those of the function that it stands in."""
        if clause.isdecimal() and 0 < int(clause) <= len(arguments):
            return arguments[int(clause) - 1]
        name, *given = [self.expand(part, place, arguments) for part in split_arguments(clause)]
        if name in self.variables:
            return self.call(name, given, place)
        if name in FUNCTIONS:
            count, function = FUNCTIONS[name]
            if len(given) != count:
                raise place.fault(f"{name} takes {count} arguments and has {len(given)}: $({clause})")
            return function(self, place, *given)
        if name in self.passed:
            return self.passed[name]
        if self.reads_environment and not given and name in os.environ:
            return os.environ[name]
        if PLAIN_NAME.fullmatch(name) and not given and not name.isdecimal():
            self.add_absent([name])
        return ""

    def call(self, name: str, given: list[str], place: Place) -> str:
        """What a variable gives, or a function that the tree has defined."""
        variable = self.variables[name]
        if not given and variable.open_expansions:
            raise place.fault(f"a variable that its own expansion needs: {name}")
        if variable.open_expansions > MOST_CALLS:
            raise place.fault(f"a function that calls itself without end: {name}")
        if not variable.is_recursive:
            self.add_absent(variable.absent)
            return variable.value
        variable.open_expansions += 1
        try:
            return self.expand(variable.value, place, given)
        finally:
            variable.open_expansions -= 1

    def assign(self, name: str, operator: str, value: str, place: Place) -> None:
        """Does what an assignment says."""
        known = self.variables.get(name)
        if operator == "+=" and known:
            known.value += " " + (value if known.is_recursive else self.expand(value, place))
            known.absent += self.absent
        elif operator == ":=":
            self.variables[name] = Variable(self.expand(value, place), is_recursive=False, absent=[*self.absent])
        else:
            self.variables[name] = Variable(value, is_recursive=True)

    def read_assignment(self, line: str, place: Place) -> bool:
        """Reads a line that is an assignment, or has references alone, which must give no text. False: it is neither."""
        text, at = line.lstrip(" \t"), 0
        while True:
            at = NAME_PART.match(text, at).end()
            if not text.startswith("$(", at):
                break
            expansion, end = self.expand_reference(text, at, place)
            text, at = text[:at] + expansion + text[end:], at + len(expansion)
        if not text.strip():
            return True
        match = ASSIGNMENT.fullmatch(text, at)
        if not match or at == 0:
            return False
        self.assign(text[:at], match[1], match[2], place)
        return True

    def environment(self) -> dict[str, str]:
        """The environment of commands: that of this program, and the words NAME=VALUE."""
        return {**os.environ, **self.passed}


def report_command(macros: Macros, place: Place, command: str, done: subprocess.CompletedProcess) -> None:
    """Says what a command wrote to standard error, or in place of a shell's message which variables are not given."""
    if macros.absent and not macros.reported.issuperset(macros.absent):
        print(f"{place.path}:{place.line}: {macros.absent_words()} (in `{command}`)", file=sys.stderr)
        macros.reported.update(macros.absent)
    if not macros.absent or done.returncode not in NOT_RUN:
        message = done.stderr.decode(errors="replace").rstrip()
        print(f"{place.path}:{place.line}: `{command}` wrote: {message}", file=sys.stderr)


def run_shell(macros: Macros, place: Place, command: str) -> str:
    """The standard output of a command: each line end is a space, those at the end are dropped."""
    macros.commands += 1
    try:
        done = subprocess.run(
            command,
            shell=True,
            cwd=macros.folder,
            env=macros.environment(),
            capture_output=True,
            stdin=subprocess.DEVNULL,
        )
    except (OSError, ValueError) as fault:
        raise place.fault(f"`{command}` can't be run: {fault}") from fault
    if done.stderr:
        report_command(macros, place, command, done)
    output = done.stdout.decode(errors="replace")
    return "\n".join(output.splitlines()).rstrip("\n").replace("\n", " ")


def print_info(macros: Macros, place: Place, text: str) -> str:
    print(f"{place.path}:{place.line}: {text}", file=sys.stderr)
    return ""


def warn_if(macros: Macros, place: Place, condition: str, text: str) -> str:
    if condition == "y":
        print(f"{place.path}:{place.line}: warning: {text}", file=sys.stderr)
    return ""


def fail_if(macros: Macros, place: Place, condition: str, text: str) -> str:
    if condition == "y":
        raise place.fault(text)
    return ""


# The built-in functions: the number of their arguments, and what they do.
FUNCTIONS: dict[str, tuple[int, Callable[..., str]]] = {
    "shell": (1, run_shell),
    "info": (1, print_info),
    "warning-if": (2, warn_if),
    "error-if": (2, fail_if),
    "filename": (0, lambda macros, place: place.path),
    "lineno": (0, lambda macros, place: str(place.line)),
}
