"""Writes a tree that is meant to cost much: make_hostile.py SHAPE SIZE FOLDER.

It writes FOLDER/Kconfig, and where the shape has them FOLDER/config, FOLDER/stdin and further files. What the size
counts is in the table of hostile_shapes.py. COLLIDING_NAMES is the path of the program of colliding_names.c.
"""

import os
import subprocess
import sys

MOST_TEXT = 16_777_216
LINE = 65_000
DIGITS = 60_000
BIG = 15_000_000
GUESSES = 4_200

BOOL = 'config {0}\n\tbool "{0}"\n'


def bools(count, more=""):
    """So many bools, with more lines in each."""
    return "".join(f'config S{at}\n\tbool "s"\n{more.replace("{at}", str(at))}' for at in range(count))


def chained(count, line):
    """So many bools, each with a line on the one before."""
    return "".join(BOOL.format(f"S{at}") + (f"\t{line} S{at - 1}\n" if at else "\tdefault y\n") for at in range(count))


def selected_in_turn(size):
    """So many bools without a prompt, each of which selects the next one, and a bool that selects the first."""
    links = "".join(f"config S{at}\n\tbool\n\tselect S{at + 1}\n" for at in range(size - 1))
    return BOOL.format("T") + f"\tselect S0\n{links}config S{size - 1}\n\tbool\n"


def depending_in_turn(size):
    """So many bools, each of which depends on the one before."""
    return "".join(BOOL.format(f"S{at}") + (f"\tdepends on S{at - 1}\n" if at else "") for at in range(size))


def needing_many(joint):
    """A bool that depends on so many others, as far as a line has room."""
    return lambda size: bools(size) + BOOL.format("T") + f"\tdepends on {joint.join(f'S{at}' for at in range(size))}\n"


def repeated_term(term, joint, size):
    """A term again and again, in so many bytes at most."""
    return joint.join([term] * max(1, size // (len(term) + len(joint))))


def appended(sign, size):
    return f"V {sign} a\n" + "V += \n" * size + 'config A\n\tstring "a"\n\tdefault "$(V)"\n'


def any_of(size):
    """So many bools, of which the last is y, and the condition that one of them is."""
    names = [f"C{at}" for at in range(size)]
    named = "".join(f'config {name}\n\tbool "c"\n' for name in names)
    return named + "\tdefault y\n", " || ".join(names)


def under_long_condition(size, inside):
    """A menu with something in it, whose condition names so many symbols, as far as a line has room."""
    named, condition = any_of(size)
    return f'{named}menu "m"\n\tdepends on {condition}\n{inside}endmenu\n'


def long_condition(size):
    """So many symbols in a menu whose condition names that many others."""
    return under_long_condition(size, bools(size))


def choices_under_long_condition(size):
    """So many choices of one member in a menu whose condition names as many symbols."""
    choice = 'choice\n\tprompt "c"\nconfig S{0}\n\tbool "s"\nendchoice\n'
    return under_long_condition(size, "".join(choice.format(at) for at in range(size)))


def all_used_under_long_condition(size):
    """So many symbols in such a menu, and one behind it that is y if one of these is."""
    inside = " || ".join(f"S{at}" for at in range(size))
    return long_condition(size) + f'config T\n\tbool "t"\n\tdefault y if {inside}\n'


def selects_of_long_condition(size):
    """A symbol that is y, whose own condition names so many symbols, and that selects as many."""
    named, condition = any_of(size)
    selects = "".join(f"\tselect S{at}\n" for at in range(size))
    return f'{named}config L\n\tbool "l"\n\tdefault y\n\tdepends on {condition}\n{selects}{bools(size)}'


def menus_under_long_condition(size):
    """So many menus, each with a symbol, in a menu whose condition names as many symbols."""
    menu = 'menu "n"\nconfig S{0}\n\tbool "s"\nendmenu\n'
    return under_long_condition(size, "".join(menu.format(at) for at in range(size)))


def nested(each):
    """Some symbols in 64 open blocks, whose conditions each name some others."""

    def tree(size):
        names = [[f"C{block}_{at}" for at in range(each)] for block in range(64)]
        named = "".join(BOOL.format(name) for block in names for name in block)
        opened = "".join(f"if {' || '.join(block)}\n" for block in names)
        return named + opened + bools(size) + "endif\n" * len(names)

    return tree


def stacks(size):
    """So many times 64 menus in one another."""
    return ('menu "m"\n\tvisible if y\n' * 64 + "endmenu\n" * 64) * size


def references(size):
    """So many lines that follow some 65,000 references each, which stand for nothing."""
    return f'A :=\nB = {"$(A)" * 1000}\nC = {"$(B)" * 64}\nconfig S\n\tstring "s"\n' + '\tdefault "$(C)"\n' * size


def long_texts(size):
    """So many lines that each put a variable of 65,000 bytes in place."""
    return f"V := {'a' * LINE}\n" + "".join(f'config S{at}\n\tstring "s"\n\tdefault "$(V)"\n' for at in range(size))


def long_prompts(size):
    """The same in prompts."""
    return f"V := {'a' * LINE}\n" + "".join(f'config S{at}\n\tbool "$(V)"\n' for at in range(size))


def long_default(size):
    """Strings whose default is one string of 65,000 bytes."""
    own = f'config L\n\tstring "l"\n\tdefault "{"a" * LINE}"\n'
    return own + "".join(f'config S{at}\n\tstring "s"\n\tdefault L\n' for at in range(size))


def long_ints():
    """The ints L and H, each with a default of 60,000 digits, most of which are zeros."""
    zeros = "0" * (DIGITS - 1)
    return "".join(f'config {name}\n\tint\n\tdefault "{zeros}{digit}"\n' for name, digit in (("L", 1), ("H", 9)))


def ranges_of_long_ints(size):
    """Ints whose range is from one int of 60,000 digits to another."""
    return long_ints() + "".join(f'config S{at}\n\tint "s"\n\trange L H\n\tdefault 5\n' for at in range(size))


def comparisons_of_long_ints(size):
    """A line of comparisons of these."""
    return f'{long_ints()}config A\n\tbool "a"\n\tdefault y if {" && ".join(["L<H"] * size)}\n'


def compared_strings(sign):
    """Bools whose default compares two strings of 65,000 bytes, which differ in the last one."""

    def tree(size):
        texts = "".join(f'config {name}\n\tstring\n\tdefault "{"a" * LINE}{name}"\n' for name in ("K", "L"))
        return texts + bools(size, f"\tdefault y if K {sign} L\n")

    return tree


def with_expression(term, joint):
    """A hundred symbols that depend on an expression of so many bytes."""
    return lambda size: BOOL.format("A") + bools(100, f"\tdepends on {repeated_term(term, joint, size)}\n")


def parentheses(size):
    """The same with 64 parentheses in one another, again and again."""
    return with_expression("(" * 64 + "A" + ")" * 64, " && ")(size)


def naming(paths):
    """A symbol whose help text looks like `source` lines of some paths."""
    return BOOL.format("A") + "\thelp\n" + "".join(f'\t  source "{path}"\n' for path in paths)


def spelled(number):
    """A path of the file `big`, another for each number."""
    return "./" + "".join("./" if bit == "1" else "/" for bit in f"{number:b}") + "big"


def spellings(size):
    return naming(spelled(at) for at in range(size))


def missing_files(size):
    return naming(f"none{at}" for at in range(size))


def guesses_before_comments(size):
    """More files than there may be, named by comments that look like `source` lines, and after a long text some files
    that are sourced."""
    named = "".join(f'# c \\\nsource "guess{at}"\n' for at in range(GUESSES))
    return named + comments(1_600_000) + sourced_files(size)


def sourced(size):
    return 'source "part"\n' * size


def sourced_files(size):
    return "".join(f'source "part{at}"\n' for at in range(size))


def files_after_comments(size):
    """So many lines that source a file in a form that is not read ahead, behind 75 times as many comments."""
    return comments(61 * 75 * size) + "".join(f"source \"p\\art{at}\"\n" for at in range(size))


def definitions(size):
    return 'config A\n\tbool "a"\n' + "config A\n\tdefault y\n" * size


def ranges(size):
    bounds = "config L\n\tint\n\tdefault 1\nconfig H\n\tint\n\tdefault 9\n"
    return bounds + 'config A\n\tint "a"\n' + "\trange L H if L > H\n" * size


def help_text(size):
    return BOOL.format("A") + "\thelp\n" + "\t  a line of a help text, which goes on and on, to here\n" * (size // 55)


def members(size):
    return 'choice\n\tprompt "c"\n' + bools(size) + "endchoice\n"


def long_lines(size):
    return "".join(f'config S{at}\n\tbool "{"p" * (65_536 - 8)}"\n' for at in range(size))


def comments(size):
    return "# a comment of a Kconfig that goes on to its end here, or so\n" * (size // 61)


def loop(size):
    return chained(size, "depends on") + f"config S0\n\tdepends on S{size - 1}\n"


def filled(line):
    """So many bytes of a line of one symbol, behind a bool."""
    return lambda size: BOOL.format("A") + line * ((size - 40) // len(line))


def named(groups):
    """So many symbols with names that begin at one of so many groups of a table of a hash without a seed."""

    def tree(size):
        command = [os.environ["COLLIDING_NAMES"], str(size), str(groups)]
        names = subprocess.run(command, check=True, stdout=subprocess.PIPE, text=True).stdout.split()
        return "".join(f'config {name}\n\tbool "s"\n' for name in names)

    return tree


def undefined_names(size):
    """A condition of so many names that no line defines."""
    return BOOL.format("A") + "\tdepends on " + " || ".join(f"U{at}" for at in range(size)) + "\n"


def selected_again(size):
    """A symbol that another selects in so many lines."""
    return BOOL.format("T") + BOOL.format("A") + "\tdefault y\n" + "\tselect T\n" * size


def forced(size):
    """So many symbols that one selects, while what they depend on is n."""
    symbols = bools(size, "\tdepends on N\n")
    selects = "".join(f"\tselect S{at}\n" for at in range(size))
    return BOOL.format("N") + symbols + BOOL.format("A") + "\tdefault y\n" + selects


def forced_in_menu(size):
    """So many symbols that one selects, in a menu with as many conditions, of which the last is n."""
    lines = "\tdepends on Y\n" * size + "\tdepends on N\n"
    selects = "".join(f"\tselect S{at}\n" for at in range(size))
    chosen = BOOL.format("N") + BOOL.format("Y") + "\tdefault y\n" + BOOL.format("A") + "\tdefault y\n" + selects
    return f'{chosen}menu "m"\n{lines}{bools(size)}endmenu\n'


def unused_defaults(size):
    """So many defaults after one without a condition."""
    return BOOL.format("A") + "\tdefault y\n" * (size + 1)


def unused_after_conditions(size):
    """As many defaults after one without a condition, which comes after as many with one."""
    return BOOL.format("N") + BOOL.format("A") + "\tdefault y if N\n" * size + "\tdefault y\n" * (size + 1)


def forced_by_two(size):
    """So many symbols that two select in turn, while what they depend on is n."""
    symbols = bools(size, "\tdepends on N\n")
    selects = ["".join(f"\tselect S{at}\n" for at in range(first, size, 2)) for first in (0, 1)]
    chosen = "".join(BOOL.format(name) + "\tdefault y\n" + lines for name, lines in zip("AB", selects))
    return BOOL.format("N") + symbols + chosen


def named_again(size):
    """A symbol of so many definitions, the last of them with a prompt, which a condition names as often."""
    lines = "".join(f"\tdepends on {repeated_term('D', ' && ', 4_000)}\n" for _ in range(size // 500))
    defined = "config D\n\tbool\n" * size + 'config D\n\tbool "d"\n'
    return f'{defined}config L\n\tbool\n\tselect D\nconfig A\n\tbool "a"\n{lines}'


def help_like_variables(size):
    """A help text of lines that look like variables with a long text in them, and so many bytes."""
    line = "\t  A{0}=$(B)\n"
    lines = "".join(line.format(at) for at in range(size // 14))
    return f"B := {'b' * 4_000}\n" + BOOL.format("A") + "\thelp\n" + lines


def variable_set_anew(size):
    """So many files, each sourced by a variable that was set to its path just before."""
    return "".join(f'V := part{at}\nsource "$(V)"\n' for at in range(size))


def recursive_behind_comments(size):
    """A file that 40 others lead to, and that sources itself, with so many bytes of comments in each."""
    return comments(size // 40) + 'source "deep0"\n'


def near_names(size):
    """5,000 names of 60 bytes, and so many lines each with a name that is near one of them and defined nowhere."""
    name = "A_LONG_NAME_THAT_MANY_OTHERS_BEGIN_WITH_AND_DIFFER_AT_ITS_END"
    defined = "".join(f'config {name[:55]}{at:05}\n\tbool "s"\n' for at in range(5_000))
    return defined + BOOL.format("A") + "".join(f"\tdepends on !{name[:54]}X{at % 5_000:05}\n" for at in range(size))


def expressions(size):
    """So many bytes of lines that are as long as they may be, each one expression."""
    line = f"\tdefault y if {repeated_term('A', '&&', LINE)}\n"
    return BOOL.format("A") + BOOL.format("B") + line * ((size - 80) // len(line))


ONE_SYMBOL = BOOL.format("A")

KCONFIGS = {
    "all empty lines": filled("\n"),
    "all blanks": filled("\t \t \t \t\n"),
    "all `#`": filled("#\n"),
    "all `config A`": filled("config A\n"),
    "all `default y`": filled("\tdefault y\n"),
    "all `comment \"c\"`": filled('comment "c"\n'),
    "all menus": filled('menu "m"\nendmenu\n'),
    "all `if A`": filled("if A\nendif\n"),
    "all `A&&A`": expressions,
    "all variables": filled("V := a\n"),
    "append to :=": lambda size: appended(":=", size),
    "append to =": lambda size: appended("=", size),
    "long condition": long_condition,
    "long condition, list": long_condition,
    "long condition, listnewconfig": long_condition,
    "long condition, show": all_used_under_long_condition,
    "long condition, choices": choices_under_long_condition,
    "long condition, menus": menus_under_long_condition,
    "long condition, savedefconfig": long_condition,
    "long condition, selects": selects_of_long_condition,
    "long condition, selects, list": selects_of_long_condition,
    "long condition, edits": long_condition,
    "blocks in one another": nested(1),
    "blocks of eight names": nested(8),
    "menus in one another": stacks,
    "selected": lambda size: BOOL.format("T") + bools(size, "\tselect T\n"),
    "implied": lambda size: BOOL.format("T") + bools(size, "\timply T\n"),
    "chain of defaults": lambda size: chained(size, "default"),
    "chain of dependencies": lambda size: chained(size, "depends on"),
    "chain of selects": lambda size: bools(size, "\tselect S{at}0\n"),
    "loop": loop,
    "defaults of one symbol": lambda size: bools(10) + 'config A\n\tbool "a"\n' + "\tdefault y if S1 && S2\n" * size,
    "depends on of one symbol": lambda size: bools(10) + 'config A\n\tbool "a"\n' + "\tdepends on S1 || S2\n" * size,
    "ranges of one symbol": ranges,
    "definitions of one symbol": definitions,
    "members of a choice": members,
    "members, savedefconfig": members,
    "flat, savedefconfig": bools,
    "flat, list": bools,
    "flat, loads": bools,
    "flat, merges": bools,
    "flat, edits of all": bools,
    "names that collide": named(4096),
    "names that do not": named(1),
    "help text": help_text,
    "spellings of a file": spellings,
    "missing files": missing_files,
    "comments": comments,
    "one file sourced": sourced,
    "files sourced": sourced_files,
    "files after comments": files_after_comments,
    "guesses before comments": guesses_before_comments,
    "references": references,
    "long texts": long_texts,
    "long prompts": long_prompts,
    "long default": long_default,
    "ranges of long ints": ranges_of_long_ints,
    "comparisons of long ints": comparisons_of_long_ints,
    "order of long strings": compared_strings("<"),
    "equality of long strings": compared_strings("="),
    "A && A": with_expression("A", " && "),
    "A && !A": with_expression("A && !A", " || "),
    "! in a row": with_expression("!" * 64 + "A", " && "),
    "parentheses": parentheses,
    "comparisons": with_expression('A = "y"', " && "),
    "long lines": long_lines,
    "undefined names, check": undefined_names,
    "selected again, why": selected_again,
    "forced, check": forced,
    "forced in a menu, check": forced_in_menu,
    "unused defaults, check": unused_defaults,
    "definitions of one symbol, menu": definitions,
    "long condition, check": long_condition,
    "long condition, merge": long_condition,
    "flat, why": bools,
    "near names, check": near_names,
    "unused after conditions, check": unused_after_conditions,
    "forced by two, check": forced_by_two,
    "named again, why": named_again,
    "long condition, menu": long_condition,
    "help like variables": help_like_variables,
    "variable set anew": variable_set_anew,
    "recursion behind comments": recursive_behind_comments,
    "selected, shown again": lambda size: bools(size, "\tselect T\n") + BOOL.format("T"),
    "definitions, shown again": definitions,
    "chain of selects, how": selected_in_turn,
    "chain of dependencies, how": depending_in_turn,
    "fan, how": lambda size: BOOL.format("T") + bools(size, "\tdepends on T\n"),
    "any of many, how": needing_many(" || "),
    "all of many, how": needing_many(" && "),
}

# The shapes of a `.config` or a stream, over one symbol.
CONFIGS = {
    ".config: comments": b"# a comment\n",
    ".config: warnings": b"CONFIG_NOWHERE=y\n",
    ".config: no lines": b"what\n",
    ".config: one symbol": b"CONFIG_A=y\n",
}
# The commands of a session over a shape of a Kconfig.
QUERIES = {
    "flat, list": b"list\n",
    "flat, loads": b"load 1\nCONFIG_S0=y\n" * 1_000,
    "flat, merges": b"merge 1\nCONFIG_S0=y\nmerge 1\nCONFIG_S0=n\n" * 500,
    "flat, edits of all": b"allyes\nallno\nreset\n" * 100,
    "long condition, list": b"list\n",
    "long condition, show": b"show T\n",
    "long condition, selects, list": b"list\n",
    "long condition, choices": b"choices\n",
    "long condition, edits": b"config\nallyes\nconfig\nallno\nconfig\n",
}
# The commands that are given as often as the size says.
REPEATED = {
    "selected, shown again": b"show T\n",
    "definitions, shown again": b"show A\n",
}
STREAMS = {
    "session: refused 1": (b"frob\n", 1),
    "session: refused 2": (b"set NOWHERE y\n", 1),
    "session: edits": (b"set A y\nset A n\n", 2),
    "session: small loads": (b"load 1\nCONFIG_A=y\n", 1),
}


def body_of(size):
    """A load of so many bytes of lines with warnings."""
    line = b"CONFIG_NOWHERE=y\n"
    count = size // len(line)
    return b"load %d\n" % count + line * count


def write_all(shape, size):
    """What the files of a shape hold, by their names."""
    if shape in CONFIGS:
        line = CONFIGS[shape]
        return {"Kconfig": ONE_SYMBOL.encode(), "config": line * (size // len(line))}
    if shape in STREAMS:
        text, commands = STREAMS[shape]
        return {"Kconfig": ONE_SYMBOL.encode(), "stdin": text * (size // commands)}
    if shape == "session: a load":
        return {"Kconfig": ONE_SYMBOL.encode(), "stdin": body_of(size)}
    files = {"Kconfig": KCONFIGS[shape](size).encode()}
    if shape in QUERIES:
        files["stdin"] = QUERIES[shape]
    if shape in REPEATED:
        files["stdin"] = REPEATED[shape] * size
    if shape in ("long condition, savedefconfig", "long condition, check", "long condition, merge"):
        files["config"] = "".join(f"CONFIG_S{at}=y\n" for at in range(size)).encode()
    if shape == "one file sourced":
        files["part"] = b"comment \"c\"\n"
    if shape == "spellings of a file":
        files["big"] = comments(BIG).encode()
    if shape == "guesses before comments":
        files.update({f"guess{at}": b"# c\n" for at in range(GUESSES)})
    if shape == "recursion behind comments":
        text = comments(size // 40).encode()
        files.update({f"deep{at}": text + b'source "deep%d"\n' % min(at + 1, 39) for at in range(40)})
    if shape in ("files sourced", "files after comments", "guesses before comments", "variable set anew"):
        files.update({f"part{at}": f'config S{at}\n\tbool "s"\n'.encode() for at in range(size)})
    return files


def main():
    shape, size, folder = sys.argv[1], int(sys.argv[2]), sys.argv[3]
    for name, data in write_all(shape, size).items():
        with open(os.path.join(folder, name), "wb") as file:
            file.write(data[:MOST_TEXT])


if __name__ == "__main__":
    main()
