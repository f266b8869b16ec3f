"""Random Kconfig trees, and edits of their user values, inside what both kconf and Kconfiglib accept.

A tree has units: symbols, and choices with their members. Each unit names only units that were made before it, so no
tree has a loop; the order in the file is another one, so a symbol may be named before its definition.
"""

from __future__ import annotations

from dataclasses import dataclass, field
from random import Random

TRISTATES = ("bool", "tristate")
NUMBERS = ("int", "hex")
TYPES = (*TRISTATES, *TRISTATES, *NUMBERS, "string")
SIGNS = ("=", "!=", "<", "<=", ">", ">=")
UNDEFINED = ("NOWHERE", "NOT_THERE")

NUMERALS = {
    "int": ("0", "1", "2", "5", "9", "12", "-3", "-0", "007", "100"),
    "hex": ("0x0", "0x1", "1", "5", "0x1f", "ff", "0XFF", "0x00a", "20"),
}
# What a user may type, whether or not it is a value of the type.
TYPED = {
    "bool": ("n", "y", "y", "n", "m", "yes", ""),
    "tristate": ("n", "m", "y", "m", "y", "x"),
    "int": (*NUMERALS["int"], "3", "4", "7", "50", "0x5", "+5", "1_0", "99999999999999999999", "", "x"),
    "hex": (*NUMERALS["hex"], "0x7", "a", "0x3F", "-1", "+5", "1_0", "0x10000000000000000", "", "xyz"),
    "string": (
        *("", "a", "b c", "1", "2", "10", "0x5", "-1", 'a"b', "a\\b", "y", "m", "é"),
        *("+2", "00", "007", "1_0", " 7", "0b1", "-0x1", "0X1F", "99999999999999999999"),
    ),
}
QUOTED = (
    *('""', '"a"', '"b c"', '"1"', '"2"', '"10"', '"0x5"', '"-1"', '"y"', "'m'"),
    *('"00"', '"007"', '"+2"', '"0X5"', '"1_0"'),
)


@dataclass
class Symbol:
    """A symbol, and the number of its unit."""

    name: str
    type: str
    rank: int
    is_member: bool = False


@dataclass
class Choice:
    """A choice, and the number of its unit."""

    rank: int
    members: list[Symbol]


@dataclass
class Case:
    """A tree and the edits of its user values."""

    tree: str
    edits: list[str]


@dataclass
class Maker:
    """Makes one case."""

    random: Random
    units: list[Symbol | Choice] = field(default_factory=list)
    symbols: list[Symbol] = field(default_factory=list)

    def chance(self, percent: int) -> bool:
        return self.random.randrange(100) < percent

    def make(self) -> Case:
        self.make_units(self.random.randint(3, 14))
        order = [unit for unit in self.units for _ in range(self.definitions(unit))]
        order.sort(key=lambda unit: unit.rank + self.random.uniform(0, 4))
        lines = self.block(order, 0)
        edits = [self.edit() for _ in range(self.random.randint(3, 8))]
        return Case("\n".join(lines) + "\n", edits)

    def make_units(self, count: int) -> None:
        if self.chance(75):
            self.add_symbol("MODULES", "bool", 0)
        for rank in range(1, count + 1):
            if self.chance(15):
                names = [f"C{rank}_{at}" for at in range(self.random.randint(0, 4))]
                self.units.append(Choice(rank, [self.add_symbol(name, "bool", rank, True) for name in names]))
            else:
                self.add_symbol(f"S{rank}", self.random.choice(TYPES), rank)

    def add_symbol(self, name: str, kind: str, rank: int, is_member: bool = False) -> Symbol:
        symbol = Symbol(name, kind, rank, is_member)
        self.symbols.append(symbol)
        if not is_member:
            self.units.append(symbol)
        return symbol

    def definitions(self, unit: Symbol | Choice) -> int:
        """How often the unit is defined: MODULES and choices once."""
        return 2 if isinstance(unit, Symbol) and unit.rank and self.chance(12) else 1

    # The structure of the file

    def block(self, order: list[Symbol | Choice], depth: int) -> list[str]:
        """The lines of units in a row, some of them in menus and ifs."""
        lines = []
        while order:
            size = self.random.randint(1, min(5, len(order)))
            inside = order[:size]
            if depth < 3 and self.chance(30):
                lines += self.wrapped(inside, depth)
            else:
                size = 1
                lines += self.unit_lines(inside[0])
            order = order[size:]
            if self.chance(8):
                lines += self.comment(order[0].rank if order else len(self.units))
        return lines

    def wrapped(self, inside: list[Symbol | Choice], depth: int) -> list[str]:
        rank = min(unit.rank for unit in inside)
        body = self.block(inside, depth + 1)
        if self.chance(50):
            return [f"if {self.expression(rank)}", *body, "endif"]
        lines = [f'menu "menu {self.random.randrange(100)}"']
        lines += self.maybe(40, f"\tdepends on {self.expression(rank)}")
        lines += self.maybe(40, f"\tvisible if {self.expression(rank)}")
        return [*lines, *body, "endmenu"]

    def maybe(self, percent: int, line: str) -> list[str]:
        return [line] if self.chance(percent) else []

    def comment(self, rank: int) -> list[str]:
        line = f'comment "note {self.random.randrange(100)}"'
        return [line, *self.maybe(60, f"\tdepends on {self.expression(rank)}")]

    def unit_lines(self, unit: Symbol | Choice) -> list[str]:
        return self.choice_lines(unit) if isinstance(unit, Choice) else self.symbol_lines(unit)

    def choice_lines(self, choice: Choice) -> list[str]:
        rank = choice.rank
        word = self.random.choice(("prompt", "bool"))
        lines = ["choice", f'\t{word} "choice {rank}"{self.condition(rank, 40)}']
        lines += self.maybe(40, "\toptional")
        lines += self.maybe(30, f"\tdepends on {self.expression(rank)}")
        for member in self.random.sample(choice.members, min(len(choice.members), self.random.randrange(3))):
            lines.append(f"\tdefault {member.name}{self.condition(rank, 50)}")
        for member in choice.members:
            body = self.member_lines(member)
            lines += [f"if {self.expression(rank)}", *body, "endif"] if self.chance(10) else body
            if self.chance(10):
                lines += self.comment(rank)
        return [*lines, "endchoice"]

    def member_lines(self, member: Symbol) -> list[str]:
        lines = [f"config {member.name}", f'\tbool "{member.name}"{self.condition(member.rank, 40)}']
        lines += self.maybe(15, f"\tdepends on {self.expression(member.rank)}")
        lines += self.maybe(10, "\tdefault y")
        return lines + self.reverse(member, 15)

    # Symbols

    def symbol_lines(self, symbol: Symbol) -> list[str]:
        if symbol.name == "MODULES":
            return self.modules_lines()
        lines = [f"{self.random.choice(('config', 'config', 'menuconfig'))} {symbol.name}"]
        prompt = f' "{symbol.name.lower()}"{self.condition(symbol.rank, 30)}' if self.chance(80) else ""
        if symbol.type in TRISTATES and not prompt and self.chance(40):
            lines.append(f"\tdef_{symbol.type} {self.value(symbol)}{self.condition(symbol.rank, 40)}")
        else:
            lines.append(f"\t{symbol.type}{prompt}")
        for _ in range(self.random.choice((0, 1, 1, 2))):
            lines.append(f"\tdefault {self.value(symbol)}{self.condition(symbol.rank, 40)}")
        lines += self.maybe(35, f"\tdepends on {self.expression(symbol.rank)}")
        if symbol.type in NUMBERS:
            for _ in range(self.random.choice((0, 1, 1, 2))):
                lines.append(f"\trange {self.number(symbol)} {self.number(symbol)}{self.condition(symbol.rank, 40)}")
        return lines + self.reverse(symbol, 25)

    def modules_lines(self) -> list[str]:
        """MODULES on or off, mostly with a prompt."""
        lines = ["config MODULES", '\tbool "modules"' if self.chance(75) else "\tbool"]
        lines += self.maybe(80, "\tdefault y")
        return lines + self.maybe(80, "\toption modules")

    def reverse(self, symbol: Symbol, percent: int) -> list[str]:
        """Selections and implies, of symbols that were made later."""
        later = [it.name for it in self.symbols if it.rank > symbol.rank and it.type in TRISTATES]
        later.append(UNDEFINED[0])
        if symbol.type not in TRISTATES:
            return []
        lines = []
        for word in ("select", "imply", "imply"):
            if self.chance(percent):
                lines.append(f"\t{word} {self.random.choice(later)}{self.condition(symbol.rank, 40)}")
        return lines

    def value(self, symbol: Symbol) -> str:
        """What a default of the symbol may be."""
        if symbol.type in TRISTATES:
            return self.random.choice(("y", "m", "n", self.expression(symbol.rank)))
        if symbol.type in NUMBERS:
            return self.number(symbol)
        return self.random.choice((self.random.choice(QUOTED), self.random.choice(QUOTED), self.term(symbol.rank)))

    def number(self, symbol: Symbol) -> str:
        """A default or a bound of a number: a numeral, or a symbol made before."""
        numeral = self.random.choice(NUMERALS[symbol.type])
        if self.chance(10):
            return f'"{numeral}"'
        names = [it.name for it in self.earlier(symbol.rank) if it.type not in TRISTATES or self.chance(20)]
        return self.random.choice(names) if names and self.chance(40) else numeral

    # Expressions

    def earlier(self, rank: int) -> list[Symbol]:
        return [symbol for symbol in self.symbols if symbol.rank < rank]

    def condition(self, rank: int, percent: int) -> str:
        return f" if {self.expression(rank)}" if self.chance(percent) else ""

    def expression(self, rank: int, depth: int = 0) -> str:
        """An expression over symbols that were made before the rank. An m alone reads MODULES, whose rank is 0."""
        roll = self.random.randrange(100)
        if depth < 3 and roll < 12:
            return f"{self.operand(rank, depth)} && {self.operand(rank, depth)}"
        if depth < 3 and roll < 26:
            return f"{self.operand(rank, depth)} || {self.operand(rank, depth)}"
        if depth < 3 and roll < 36:
            return f"!{self.operand(rank, depth)}"
        if roll < 55:
            return f"{self.term(rank)} {self.random.choice(SIGNS)} {self.term(rank)}"
        names = [it.name for it in self.earlier(rank) if it.type in TRISTATES]
        if names and roll < 92:
            return self.random.choice(names)
        return self.random.choice(("y", "y", "m" if rank else "y", "n", *UNDEFINED))

    def operand(self, rank: int, depth: int) -> str:
        return f"({self.expression(rank, depth + 1)})"

    def term(self, rank: int) -> str:
        """A side of a comparison."""
        names = [it.name for it in self.earlier(rank)]
        if names and self.chance(60):
            return self.random.choice(names)
        return self.random.choice((*QUOTED, "n", "m", "y", "1", "5", "0x5", "-3", "10", UNDEFINED[1]))

    # Edits

    def edit(self) -> str:
        roll = self.random.randrange(100)
        if roll < 4 or not self.symbols:
            return "reset"
        symbol = self.random.choice(self.symbols)
        if roll < 20:
            return f"unset {symbol.name}"
        if symbol.is_member:
            return f"set {symbol.name} y"
        return f"set {symbol.name} {self.random.choice(TYPED[symbol.type])}"


def random_case(seed: int, number: int) -> Case:
    """The case of a seed and a number, the same each time."""
    return Maker(Random(f"{seed} {number}")).make()
