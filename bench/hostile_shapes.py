"""The shapes of bench/hostile.sh, their sizes, and the words that their targets take."""

import os
import shutil
import subprocess
import sys

MIB16 = 16_777_000

# A name, the target, what its size counts, a size and one that is greater; and the status where it is not 0.
SHAPES = [
    ("append to :=", "olddefconfig", "line", 6_000, 60_000, 0),
    ("append to =", "olddefconfig", "line", 6_000, 60_000, 0),
    ("long condition", "olddefconfig", "symbol", 500, 5_000, 0),
    ("long condition, list", "session", "symbol", 500, 5_000, 0),
    ("long condition, listnewconfig", "listnewconfig", "symbol", 500, 5_000, 0),
    ("long condition, show", "session", "symbol", 500, 5_000, 0),
    ("long condition, choices", "session", "choice", 500, 5_000, 0),
    ("long condition, menus", "olddefconfig", "menu", 500, 5_000, 0),
    ("long condition, savedefconfig", "savedefconfig", "symbol", 500, 5_000, 0),
    ("long condition, selects", "olddefconfig", "select", 500, 5_000, 0),
    ("long condition, selects, list", "session", "select", 500, 5_000, 0),
    ("long condition, edits", "session", "symbol", 500, 5_000, 0),
    ("blocks in one another", "olddefconfig", "symbol", 6_000, 60_000, 0),
    ("blocks of eight names", "olddefconfig", "symbol", 6_000, 60_000, 0),
    ("menus in one another", "olddefconfig", "64 menus", 60, 600, 0),
    ("selected", "olddefconfig", "symbol", 6_000, 60_000, 0),
    ("implied", "olddefconfig", "symbol", 6_000, 60_000, 0),
    ("chain of defaults", "olddefconfig", "symbol", 6_000, 60_000, 0),
    ("chain of dependencies", "olddefconfig", "symbol", 6_000, 60_000, 0),
    ("chain of selects", "olddefconfig", "symbol", 6_000, 60_000, 0),
    ("loop", "olddefconfig", "symbol", 6_000, 60_000, 1),
    ("defaults of one symbol", "olddefconfig", "line", 6_000, 60_000, 0),
    ("depends on of one symbol", "olddefconfig", "line", 6_000, 60_000, 0),
    ("ranges of one symbol", "olddefconfig", "line", 6_000, 60_000, 0),
    ("definitions of one symbol", "olddefconfig", "line", 6_000, 60_000, 0),
    ("members of a choice", "olddefconfig", "symbol", 1_000, 10_000, 0),
    ("members of a choice", "olddefconfig", "symbol", 6_000, 60_000, 0),
    ("members, savedefconfig", "savedefconfig", "symbol", 6_000, 60_000, 0),
    ("flat, savedefconfig", "savedefconfig", "symbol", 6_000, 60_000, 0),
    ("flat, list", "session", "symbol", 6_000, 60_000, 0),
    ("flat, loads", "session", "symbol", 6_000, 60_000, 0),
    ("flat, merges", "session", "symbol", 6_000, 60_000, 0),
    ("flat, edits of all", "session", "symbol", 6_000, 60_000, 0),
    ("names that collide", "olddefconfig", "symbol", 4_000, 40_000, 0),
    ("names that do not", "olddefconfig", "symbol", 4_000, 40_000, 0),
    ("help text", "olddefconfig", "byte", MIB16 // 10, MIB16, 0),
    ("comments", "olddefconfig", "byte", MIB16 // 10, MIB16, 0),
    ("spellings of a file", "olddefconfig", "line", 20, 200, 0),
    ("missing files", "olddefconfig", "line", 60_000, 600_000, 0),
    ("one file sourced", "olddefconfig", "line", 409, 4_090, 0),
    ("files sourced", "olddefconfig", "file", 409, 4_090, 0),
    ("files after comments", "olddefconfig", "file", 40, 400, 0),
    ("guesses before comments", "olddefconfig", "file", 20, 200, 0),
    ("references", "olddefconfig", "line", 10, 100, 0),
    ("long texts", "olddefconfig", "line", 100, 1_000, 0),
    ("long prompts", "olddefconfig", "line", 100, 1_000, 0),
    ("long default", "savedefconfig", "symbol", 500, 5_000, 0),
    ("ranges of long ints", "olddefconfig", "symbol", 2_000, 20_000, 0),
    ("comparisons of long ints", "olddefconfig", "term", 900, 9_000, 0),
    ("order of long strings", "olddefconfig", "symbol", 600, 6_000, 0),
    ("equality of long strings", "olddefconfig", "symbol", 600, 6_000, 0),
    ("A && A", "olddefconfig", "byte of 100 lines", 6_500, 65_000, 0),
    ("A && !A", "olddefconfig", "byte of 100 lines", 6_500, 65_000, 0),
    ("! in a row", "olddefconfig", "byte of 100 lines", 6_500, 65_000, 0),
    ("parentheses", "olddefconfig", "byte of 100 lines", 6_500, 65_000, 0),
    ("comparisons", "olddefconfig", "byte of 100 lines", 6_500, 65_000, 0),
    ("long lines", "olddefconfig", "line", 25, 250, 0),
    (".config: comments", "olddefconfig", "byte", MIB16 // 10, MIB16, 0),
    (".config: warnings", "olddefconfig", "byte", MIB16 // 10, MIB16, 0),
    (".config: no lines", "olddefconfig", "byte", MIB16 // 10, MIB16, 0),
    (".config: one symbol", "olddefconfig", "byte", MIB16 // 10, MIB16, 0),
    ("session: refused 1", "session", "command", 10_000, 100_000, 0),
    ("session: refused 2", "session", "command", 10_000, 100_000, 0),
    ("session: edits", "session", "command", 10_000, 100_000, 0),
    ("session: small loads", "session", "command", 10_000, 100_000, 0),
    ("session: a load", "session", "byte", MIB16 // 10, MIB16, 0),
]
SHAPES += [
    ("undefined names, check", "check", "name", 900, 9_000, 0),
    ("selected again, why", "why", "line", 2_000, 20_000, 0),
    ("forced, check", "check", "symbol", 2_000, 20_000, 0),
    ("forced in a menu, check", "check", "symbol", 400, 4_000, 0),
    ("unused defaults, check", "check", "line", 2_000, 20_000, 0),
    ("definitions of one symbol, menu", "menu", "line", 2_000, 20_000, 0),
    ("long condition, check", "check", "symbol", 400, 4_000, 0),
    ("long condition, merge", "merge", "symbol", 400, 4_000, 0),
    ("flat, why", "why", "symbol", 400, 4_000, 0),
    ("near names, check", "check", "name", 500, 5_000, 0),
    ("unused after conditions, check", "check", "line", 2_000, 20_000, 0),
    ("forced by two, check", "check", "symbol", 2_000, 20_000, 0),
    ("named again, why", "why", "line", 2_000, 20_000, 0),
    ("help like variables", "olddefconfig", "byte", 440_000, 4_400_000, 0),
    ("variable set anew", "olddefconfig", "file", 400, 4_000, 0),
    ("recursion behind comments", "olddefconfig", "byte", MIB16 // 20, MIB16 // 2, 1),
    ("selected, shown again", "session", "command", 600, 6_000, 0),
    ("definitions, shown again", "session", "command", 600, 6_000, 0),
    ("chain of selects, how", "how", "symbol", 6_000, 60_000, 0),
    ("chain of dependencies, how", "how", "symbol", 6_000, 60_000, 1),
    ("fan, how", "how", "symbol", 6_000, 60_000, 0),
    ("any of many, how", "how", "name", 600, 6_000, 0),
    ("all of many, how", "how", "name", 1_500, 6_000, 1),
]
LINES = ("empty lines", "blanks", "`#`", "`config A`", "`default y`", '`comment "c"`', "menus", "`if A`", "`A&&A`", "variables")
SHAPES += [(f"all {what}", "olddefconfig", "byte", MIB16 // 10, MIB16, 0) for what in LINES]

# The words after the .config that a report takes.
WORDS = {
    "selected again, why": lambda size: ["T", "--all"],
    "flat, why": lambda size: [f"S{at}" for at in range(size)],
    "long condition, merge": lambda size: ["config"],
    "named again, why": lambda size: ["A"],
    "recursion behind comments": lambda size: ["--explain"],
    "chain of selects, how": lambda size: [f"CONFIG_S{size - 1}=y"],
    "chain of dependencies, how": lambda size: [f"CONFIG_S{size - 1}=y"],
    "fan, how": lambda size: [f"CONFIG_S{size - 1}=y"],
    "any of many, how": lambda size: ["CONFIG_T=y"],
    "all of many, how": lambda size: ["CONFIG_T=y"],
}


def make(work, shape, size):
    """The folder of a shape of a size, in the folder `work`, which was written anew."""
    folder = os.path.join(work, "shape")
    shutil.rmtree(folder, ignore_errors=True)
    os.mkdir(folder)
    program = os.path.join(os.path.dirname(os.path.abspath(__file__)), "make_hostile.py")
    subprocess.run([sys.executable, program, shape, str(size), folder], check=True)
    return folder
