"""Reads the code of the crates without a compiler: what is code in a text, and which names it defines and imports."""

import re
from typing import Set

# Where comments, texts in quotes, characters and clauses begin. A lifetime is none of these.
BEGIN = re.compile(
    r"""
    //[^\n]* | /\*.*?\*/
    | \bb?r(?P<marks>\#*)".*?"(?P=marks) | b?"(?:\\.|[^"\\])*" | b?'(?:\\.[^']*|[^\\'\n])'
    | (?P<clause>\b(?:ensures|requires)\b[^{;]*\{) | (?P<ghost>\bghost\b)
    """,
    re.DOTALL | re.VERBOSE,
)

ITEM = re.compile(r"\b(?:fn|struct|enum|trait|type|mod|const|static|macro_rules!)\s+(?:mut\s+)?(\w+)")
FREE_FUNCTION = re.compile(r"^(?:pub(?:\([^)]*\))?\s+)?(?:const\s+|unsafe\s+)*fn\s+(\w+)", re.MULTILINE)
USE = re.compile(r"\buse\s+([^;]+);")
VARIANT = re.compile(r"\b[A-Z]\w*")

BRACES = re.compile(r"[{}]")
SIGNS = re.compile(r"[{};]")
GHOST_FIELD = re.compile(r"\s*\w+\s*:\s*\{")


def end_of_braces(text: str, start: int) -> int:
    """Where the braces end of which the first is before `start`."""
    depth = 1
    for brace in BRACES.finditer(text, start):
        depth += 1 if brace[0] == "{" else -1
        if depth == 0:
            return brace.end()
    return len(text)


def end_of_ghost(text: str, start: int) -> int:
    """Where a ghost item ends: a field with its braces, another one at its semicolon, which is outside braces."""
    if field := GHOST_FIELD.match(text, start):
        return end_of_braces(text, field.end())
    depth = 0
    for sign in SIGNS.finditer(text, start):
        depth += {"{": 1, "}": -1, ";": 0}[sign[0]]
        if sign[0] == ";" and depth <= 0:
            return sign.end()
    return len(text)


def end_of(text: str, begin: "re.Match[str]") -> int:
    if begin["clause"]:
        return end_of_braces(text, begin.end())
    return end_of_ghost(text, begin.end()) if begin["ghost"] else begin.end()


def bare(text: str) -> str:
    """A text of the same length, with blanks for comments, texts in quotes, characters, clauses and ghost items."""
    parts, done = [], 0
    while begin := BEGIN.search(text, done):
        end = end_of(text, begin)
        parts += [text[done : begin.start()], re.sub(r"[^\n]", " ", text[begin.start() : end])]
        done = end
    return "".join([*parts, text[done:]])


def imported(code: str) -> Set[str]:
    """The names that the `use` lines of bare code bring into scope."""
    names: Set[str] = set()
    for tree in USE.findall(code):
        names |= set(re.findall(r"(\w+)\s*(?=[,}]|$)", tree))
        names |= set(re.findall(r"(\w+)::\{[^{}]*\bself\b", tree))
    return names - {"self"}


def items(code: str) -> Set[str]:
    """The functions, types, modules and constants that bare code defines."""
    return set(ITEM.findall(code))


def variants(code: str, name: str) -> Set[str]:
    """The variants of an enum of this name in bare code."""
    found = re.search(rf"\benum\s+{name}\b[^{{]*\{{", code)
    return set(VARIANT.findall(code[found.end() : end_of_braces(code, found.end())])) if found else set()
