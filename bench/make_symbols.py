"""Writes the Kconfig of many symbols in one of several shapes to standard output.

    make_symbols.py SHAPE COUNT

SHAPE is one of the following; the symbols are bool but in `range`.

- flat: symbols with a prompt and nothing else,
- depends: each depends on the one before,
- default: each has the one before as its default,
- select: all select the first,
- above: all stand in a menu that depends on an expression of 60,000 bytes,
- under: all stand in a menu that depends on the same four symbols once,
- range: each is an int with a range whose bounds are two other int symbols,
- choice: all are the members of one choice.
"""

import sys

LONG_LINE = 60_000
FOUR = "(A || B) && (C || D)"


def shape_lines(shape, number):
    """The lines of a symbol besides its name and prompt."""
    before = f"S{number - 1}"
    if shape == "range":
        return ["\trange LOW HIGH"]
    if number == 0:
        return []
    if shape == "depends":
        return [f"\tdepends on {before}"]
    if shape == "default":
        return [f"\tdefault {before}"]
    if shape == "select":
        return ["\tselect S0"]
    return []


def long_expression():
    """An expression of four symbols, as often as the line has room."""
    return " && ".join([FOUR] * (LONG_LINE // (len(FOUR) + 4)))


def lines_before(shape):
    """The lines before the symbols."""
    if shape == "range":
        bounds = (("LOW", 1), ("HIGH", 100))
        return [f'config {name}\n\tint "{name}"\n\tdefault {value}' for name, value in bounds]
    if shape == "choice":
        return ["choice", '\tprompt "choice"']
    names = [f'config {name}\n\tbool "{name}"\n\tdefault y' for name in "ABCD"]
    if shape == "above":
        return names + ['menu "m"', f"\tdepends on {long_expression()}"]
    if shape == "under":
        return names + ['menu "m"', f"\tdepends on {FOUR}"]
    return []


def lines_after(shape):
    """The lines after the symbols."""
    if shape in ("above", "under"):
        return ["endmenu"]
    return ["endchoice"] if shape == "choice" else []


def main():
    shape, count = sys.argv[1], int(sys.argv[2])
    kind = "int" if shape == "range" else "bool"
    lines = lines_before(shape)
    for number in range(count):
        lines += [f"config S{number}", f'\t{kind} "symbol {number}"']
        lines += shape_lines(shape, number)
    lines += lines_after(shape)
    print("\n".join(lines))


main()
