"""Rewrites statements that kconf does not read into ones that it reads, where that keeps their meaning."""

from dataclasses import dataclass, field
from pathlib import Path
from typing import Iterator

from kconfig_lines import Logical, Token
from kconfig_macros import Place

TYPES = ("bool", "tristate", "string", "int", "hex")
TITLED = ("prompt", "menu", "comment", "mainmenu", *TYPES)
DEFAULTS = {"def_int": "int", "def_hex": "hex", "def_string": "string"}
ATTRIBUTES = frozenset(
    [*TYPES, *DEFAULTS, "def_bool", "def_tristate", "prompt", "default", "depends", "optional", "help", "---help---"]
)


@dataclass
class Statement:
    """A logical line, its tokens, and how it is written for kconf."""

    place: Place
    tokens: list[Token]
    written: str
    logical: Logical
    notes: list[str] = field(default_factory=list)  # of what is changed in its meaning, or could be

    def begins(self, *words: str) -> bool:
        return bool(self.tokens) and self.tokens[0].is_word(*words)

    def note(self, text: str) -> None:
        self.notes.append(f"{self.place.path}:{self.place.line}: {text}")

    def write(self, text: str) -> None:
        self.written = self.logical.keep(text)

    def indentation(self) -> str:
        return self.logical.text[: len(self.logical.text) - len(self.logical.text.lstrip(" \t"))]


@dataclass
class Renames:
    """The old names of symbols: those with the attribute `transitional` of Linux 6.18 and later, which is dropped.

    There an old .config's value of such a symbol counts without a prompt, as the default of the new symbol.
    """

    symbol: str = ""  # the one whose entry is read, and none in a choice
    old: dict[str, Place] = field(default_factory=dict)
    new: dict[str, list[str]] = field(default_factory=dict)  # what takes a symbol in a default: that symbol or member

    def see(self, statement: Statement) -> None:
        tokens = statement.tokens
        if statement.begins("config", "menuconfig") and len(tokens) == 2:
            self.symbol = tokens[1].text
        elif statement.begins("choice"):
            self.symbol = ""
        elif statement.begins("transitional") and len(tokens) == 1:
            self.old.setdefault(self.symbol, statement.place)
            statement.write("")
        elif statement.begins("default", "def_bool", "def_tristate", *DEFAULTS) and len(tokens) > 1:
            for token in tokens[1:]:
                self.new.setdefault(token.text, []).append(self.symbol or tokens[1].text)

    def notes(self) -> list[str]:
        """What became of each old name, and which symbols are to be set in its place."""
        return [
            f"{place.path}:{place.line}: transitional is dropped: what a .config says of {name} has no effect: set "
            + " or ".join(dict.fromkeys(self.new.get(name, ["its new name"])))
            for name, place in self.old.items()
        ]


def spelt(tokens: list[Token]) -> str:
    """Tokens as they are written, with a blank between."""
    return " ".join(token.written for token in tokens)


def split_at_if(tokens: list[Token]) -> tuple[list[Token], list[Token]]:
    """The tokens before the word `if`, and those behind it."""
    at = next((at for at, token in enumerate(tokens) if token.is_word("if")), len(tokens))
    return tokens[:at], tokens[at + 1 :]


def rewrite_statement(statement: Statement, names: dict[str, Place]) -> None:
    """Writes a statement for kconf. The names are those of the choices so far."""
    tokens = statement.tokens
    lines = rewritten(statement, names) if tokens else [[]]
    if lines == [tokens] and not statement.notes and all(token.is_kept() for token in tokens):
        statement.written = "\n".join(statement.logical.lines)
    else:
        statement.write("\n".join((statement.indentation() + spelt(line)).rstrip() for line in lines))


def rewritten(statement: Statement, names: dict[str, Place]) -> list[list[Token]]:
    """The lines of tokens that stand for a statement."""
    tokens = statement.tokens
    first = tokens[0].text if tokens[0].kind == "word" else ""
    if first in TITLED and len(tokens) > 1 and tokens[1].kind == "word" and not tokens[1].is_word("if"):
        statement.note(f"{tokens[1].text} is put into quotes")
        return [[tokens[0], Token("quoted", tokens[1].text, f'"{tokens[1].text}"'), *tokens[2:]]]
    if first in DEFAULTS:
        return [[Token("word", "", DEFAULTS[first])], [Token("word", "", "default"), *tokens[1:]]]
    if first == "depends" and len(tokens) > 2:
        return [conditional_dependency(tokens)]
    if first == "option" and len(tokens) > 1:
        return option(statement)
    if first == "choice" and len(tokens) == 2 and tokens[1].kind == "word":
        return named_choice(statement, names)
    return [tokens]


# What the source of a tree's conf has where it takes an int or a hex without a value as 0, and where it looks at the
# members of a choice alone and not at its prompt. That of Linux 6.12 has both, that of 6.1 none.
EMPTY_IS_ZERO = 'newval.val = "0";'
PROMPTS_ARE_OPEN = "sym_calc_choice(struct menu"


def source_of_conf(root: Path) -> str:
    """The file of a tree's own conf that says how values are computed. Empty: there is none."""
    paths = (root / folder / "kconfig" / "symbol.c" for folder in ("scripts", "tools"))
    return "".join(path.read_text(errors="replace") for path in paths if path.is_file())


def count_empty_as_zero(statement: Statement) -> None:
    """Writes `X = 0` as `(X = 0 || X = "")`, and `X != 0` as `(X != 0 && X != "")`."""
    tokens, at = [], 0
    while at < len(statement.tokens):
        three = statement.tokens[at : at + 3]
        if is_comparison_with_zero(three):
            join = "||" if three[1].text == "=" else "&&"
            either = [Token("operator", join, join), *three[:2], Token("quoted", "", '""')]
            tokens += [Token("operator", "(", "("), *three, *either, Token("operator", ")", ")")]
            statement.note(f"{three[0].written} without a value counts 0, as in the conf of this tree")
            at += 3
        else:
            tokens.append(statement.tokens[at])
            at += 1
    statement.tokens = tokens


def is_comparison_with_zero(tokens: list[Token]) -> bool:
    is_word = len(tokens) == 3 and tokens[0].kind == "word" and not tokens[0].is_word("if")
    return is_word and tokens[1].kind == "operator" and tokens[1].text in ("=", "!=") and tokens[2].is_word("0", "0x0")


def conditional_dependency(tokens: list[Token]) -> list[Token]:
    """`depends on A if B` as `depends on (A) || !(B)`, as the kernel's documents have it."""
    wanted, condition = split_at_if(tokens)
    if not condition:
        return tokens
    open_, close = Token("operator", "(", "("), Token("operator", ")", ")")
    either, negation = Token("operator", "||", "||"), Token("operator", "!", "!")
    return [*wanted[:2], open_, *wanted[2:], close, either, negation, open_, *condition, close]


def option(statement: Statement) -> list[list[Token]]:
    """`option env="NAME"` is a default with a reference; `option defconfig_list` is dropped."""
    tokens = statement.tokens
    if tokens[1].is_word("env") and len(tokens) == 4:
        statement.note(f"option env is a default here: $({tokens[3].text})")
        return [[Token("word", "", "default"), Token("quoted", "", f'"$({tokens[3].text})"')]]
    if tokens[1].is_word("defconfig_list"):
        statement.note("option defconfig_list is dropped, with the defaults of its symbol")
        return [[]]
    return [tokens]


def named_choice(statement: Statement, names: dict[str, Place]) -> list[list[Token]]:
    """A choice loses its name. A second choice of the name adds to the first one, which kconf doesn't have."""
    name = statement.tokens[1].text
    if name in names:
        raise statement.place.fault(f"the choice {name} goes on that began at {names[name].path}:{names[name].line}")
    names[name] = statement.place
    statement.note(f"the choice loses its name {name}; where a condition names it, it is undefined")
    return [statement.tokens[:1]]


def drop_defconfig_list(statements: list[Statement]) -> None:
    """Drops the defaults of the symbol with `option defconfig_list`, which has no line in conf: so it has none here."""
    entry: list[Statement] = []
    for statement in [*statements, None]:
        if statement and not statement.begins("config", "menuconfig"):
            entry.append(statement)
            continue
        if any(is_defconfig_list(line) for line in entry):
            for line in entry[: entry_end(entry)]:
                if line.begins("default"):
                    line.write("")
        entry = []


def is_defconfig_list(statement: Statement) -> bool:
    return statement.begins("option") and len(statement.tokens) > 1 and statement.tokens[1].is_word("defconfig_list")


def entry_end(lines: list[Statement]) -> int:
    """The place of the first line that is no attribute of an entry."""
    others = (at for at, line in enumerate(lines) if line.tokens and not line.begins("option", *ATTRIBUTES))
    return next(others, len(lines))


def open_prompts(statements: list[Statement]) -> Iterator[Statement]:
    """Drops the conditions of the prompts of choices, and gives these lines."""
    is_head = False
    for statement in statements:
        is_head = statement.begins("choice") or is_head and (not statement.tokens or statement.begins(*ATTRIBUTES))
        wanted, condition = split_at_if(statement.tokens)
        if is_head and condition and statement.begins("prompt", "bool"):
            what = "the condition of a choice's prompt is dropped, as in the conf of this tree"
            statement.note(f"{what}: {spelt(condition)}")
            statement.tokens = wanted
            statement.write(statement.indentation() + spelt(wanted))
            yield statement


def rewrite_choices(statements: list[Statement]) -> Iterator[Statement]:
    """Turns choices with tristate members into plain symbols, and gives the `choice` lines of these."""
    begin = None
    for at, statement in enumerate(statements):
        if statement.begins("choice"):
            begin = at
        elif statement.begins("endchoice") and begin is not None:
            if rewrite_choice(statements[begin : at + 1]):
                yield statements[begin]
            begin = None


def rewrite_choice(choice: list[Statement]) -> bool:
    """Turns a choice with tristate members into an `if` block of plain symbols. False: it has no such members.

    kconf has choices of bool members alone. Where the mode of a tristate choice is m, each member can be n or m for
    itself, as the plain symbols can; that one alone is y is lost.
    """
    end = next(at for at, line in enumerate(choice) if at and line.tokens and not line.begins(*ATTRIBUTES))
    head, members = choice[1:end], choice[end:-1]
    types = [line.tokens[0].text for line in head + members if line.begins("bool", "tristate")]
    if not types or types[0] != "tristate":
        return False
    conditions = [spelt(line.tokens[2:]) for line in head if line.begins("depends")]
    conditions += [spelt(split_at_if(line.tokens)[1]) for line in head if line.begins("prompt", "tristate")]
    joined = " && ".join(f"({condition})" for condition in conditions if condition)
    choice[0].note("a choice with tristate members: they are plain symbols here, of which several can be y")
    for line in head:
        line.write("")
    choice[0].write(f"if {joined or 'y'}")
    choice[-1].write("endif")
    return True
