#!/usr/bin/env python3
"""Writes a Kconfig of 16,000 symbols and some 5,000,000 bytes, the same each time.

    make_tree.py one FOLDER      as the one file FOLDER/Kconfig
    make_tree.py many FOLDER     as 1,500 files, of which FOLDER/Kconfig is the top one

Both have the same entries in the same order. The lines are of these forms: `config NAME`, `bool "PROMPT"`,
`default TERM`, `depends on NAME && NAME`, `help` with indented lines, comments, blank lines, and `source "PATH"`.
A symbol names only symbols before it, so there is no loop.
"""

import sys
from pathlib import Path

SYMBOLS = 16_000
FOLDERS = 20
SUBFOLDERS = 160
FILES = 1_500

WORDS = (
    "this option enables support for the device driver of an interface whose hardware stands on a bus and is found "
    "when the system starts so that programs can reach it through a file say yes here where your board has one of "
    "these parts and no where you are not sure the module is then left out and nothing else in the tree changes"
).split()


def words(start, count):
    """So many words, from a place in the list on, over and over."""
    return " ".join(WORDS[(start + step) % len(WORDS)] for step in range(count))


def name(number):
    return f"OPTION_{number:05}"


def earlier(number, salt):
    """The name of a symbol before this one, mostly a near one."""
    reach = min(number, 40 if salt % 2 else 2_000)
    return name(number - 1 - (number * 7_919 + salt * 104_729) % reach)


def attributes(number):
    """The lines of a symbol between its name and its help text."""
    lines = [f'\tbool "{words(number * 3, 6).capitalize()} {number}"']
    if number > 0 and number % 3 == 0:
        lines.append(f"\tdepends on {earlier(number, 1)} && {earlier(number, 2)}")
    elif number > 0 and number % 3 == 1:
        lines.append(f"\tdepends on {earlier(number, 3)}")
    if number % 4 == 0:
        lines.append("\tdefault y")
    elif number % 4 == 1:
        lines.append("\tdefault n")
    elif number % 8 == 2:
        lines.append(f"\tdefault {earlier(number, 4)}")
    return lines


def help_lines(number):
    lines = ["\thelp", f"\t  {words(number * 5, 11).capitalize()}", f"\t  {words(number * 7, 13)}."]
    if number % 2:
        lines += ["", f"\t  {words(number * 11, 10).capitalize()}.", "\t    See also the table of parts."]
    if number % 5 == 0:
        lines += ["", f"\t  {words(number * 13, 11).capitalize()}", f"\t  {words(number * 17, 12)}."]
    return lines


def entry(number):
    lines = [f"config {name(number)}", *attributes(number), *help_lines(number), ""]
    if number % 10 == 0:
        lines = [f"# {words(number, 10).capitalize()}.", "", *lines]
    return "\n".join(lines) + "\n"


def path_of(file):
    """The path of a file, whose number is 0 for the top one."""
    if file == 0:
        return "Kconfig"
    if file <= FOLDERS:
        return f"folder{file}/Kconfig"
    folder = path_of(parent(file)).rsplit("/", 1)[0]
    if file <= FOLDERS + SUBFOLDERS:
        return f"{folder}/part{file}/Kconfig"
    return f"{folder}/Kconfig.unit{file}"


def parent(file):
    """The file that sources a file."""
    if file <= FOLDERS:
        return 0
    if file <= FOLDERS + SUBFOLDERS:
        return 1 + (file - FOLDERS - 1) % FOLDERS
    return 1 + FOLDERS + (file - FOLDERS - SUBFOLDERS - 1) % SUBFOLDERS


def in_order(file, children):
    """A file and all below it, as they are read."""
    yield file
    for child in children[file]:
        yield from in_order(child, children)


def write(path, text):
    path.parent.mkdir(parents=True, exist_ok=True)
    path.write_text(text, encoding="ascii")


def write_many(folder):
    children = [[] for _ in range(FILES)]
    for file in range(1, FILES):
        children[parent(file)].append(file)
    for place, file in enumerate(in_order(0, children)):
        first, end = place * SYMBOLS // FILES, (place + 1) * SYMBOLS // FILES
        sources = [f'source "{path_of(child)}"\n' for child in children[file]]
        text = "".join(entry(number) for number in range(first, end)) + "".join(sources)
        write(folder / path_of(file), text)


def write_one(folder):
    write(folder / "Kconfig", "".join(entry(number) for number in range(SYMBOLS)))


if __name__ == "__main__":
    if len(sys.argv) != 3 or sys.argv[1] not in ("one", "many"):
        sys.exit(__doc__)
    {"one": write_one, "many": write_many}[sys.argv[1]](Path(sys.argv[2]))
