"""Where the fuzzer's inputs come from: the cases of crates/kc_cases/data, random trees, and Kconfigs of a tree on disk.

An input is a Kconfig with further files, variables, a `.config` and a stream of commands. The pool of a checkout is
the same each time, so a run can be made again by its seed and its number.
"""

import re
from dataclasses import dataclass, replace
from pathlib import Path
from random import Random
from typing import Iterator, List, Tuple

from random_kconfig import random_case

DATA = Path(__file__).resolve().parent.parent / "crates" / "kc_cases" / "data"

# What is greater takes too long for one run of many.
MOST_OF_A_CASE = 30_000
MOST_OF_A_FILE = 20_000
MOST_FILES_OF_A_TREE = 600
GENERATED = 200

ESCAPES = {b"r": b"\r", b"0": b"\0", b"t": b"\t", b"\\": b"\\", b"s": b" ", b"-": b"-", b"=": b"=", b"e": b""}
SYMBOL_LINE = re.compile(rb"^[ \t]*(?:menu)?config[ \t]+(\w+)", re.MULTILINE)
SOURCE_LINE = re.compile(rb"^[ \t]*source[ \t].*$", re.MULTILINE)

VALUES = (
    *(b"y", b"n", b"m", b"y", b"n", b"", b'""', b'"a b"', b'"a\\"b\\\\"', b'"a', b"0", b"-1", b"12", b"0x1F", b"ff"),
    *(b"9223372036854775807", b"18446744073709551616", b"-0", b'"\xc3\xa9"', b"yes"),
)
QUERIES = (b"list", b"choices", b"config", b"header", b"defconfig", b"new", b"reset", b"allno", b"allyes")


@dataclass(frozen=True)
class Input:
    """What the program is given, but for its options."""

    kconfig: bytes
    files: Tuple[Tuple[str, bytes], ...] = ()
    words: Tuple[bytes, ...] = ()
    config: bytes = b""
    stream: bytes = b""


# ------------------------------------------------------------------------------------------------ cases


def unescaped(line: bytes) -> bytes:
    """The bytes of a line of an escaped section, with its line feed unless it ends in `\\e`."""
    ending = b"" if line.endswith(b"\\e") else b"\n"
    return re.sub(rb"\\(.)", lambda found: ESCAPES.get(found[1], found[0]), line) + ending


def section_bytes(options: List[str], lines: List[bytes]) -> bytes:
    """The text of a section, by the words behind its header."""
    if "escaped" in options:
        once = b"".join(unescaped(line) for line in lines)
    else:
        once = b"".join(line + b"\n" for line in lines)
    if "times" not in options:
        return once
    count = int(options[options.index("times") - 1])
    if count * len(once) > MOST_OF_A_CASE:
        count = max(1, MOST_OF_A_CASE // max(1, len(once)))
    if b"{n" not in once:
        return once * count
    numbered = (once.replace(b"{n}", b"%d" % at).replace(b"{n+1}", b"%d" % (at + 1)) for at in range(count))
    return b"".join(numbered)


def sections_of(case: bytes) -> Iterator[Tuple[List[str], List[bytes]]]:
    """The words of each header of a case, with the lines below it."""
    header: List[str] = []
    lines: List[bytes] = []
    for line in case.removesuffix(b"\n").split(b"\n"):
        if line.startswith(b"--- "):
            yield header, lines
            header, lines = line[4:].decode().split(), []
        else:
            lines.append(line)
    yield header, lines


def input_of_case(case: bytes) -> Input:
    """The input of a case: its Kconfig, files, variables and commands, without what is wanted."""
    made = Input(b"")
    for header, lines in sections_of(case):
        kind = header[0] if header else ""
        text = section_bytes(header[1:], lines) if kind in ("Kconfig", "file", "commands") else b""
        if kind == "Kconfig":
            made = replace(made, kconfig=made.kconfig + text)
        elif kind == "file":
            made = replace(made, files=added_file(made.files, header[1], text))
        elif kind == "commands":
            made = replace(made, stream=made.stream + text)
        elif kind == "variables":
            made = replace(made, words=made.words + tuple(line for line in lines if line))
    return made


def added_file(files: Tuple[Tuple[str, bytes], ...], path: str, text: bytes) -> Tuple[Tuple[str, bytes], ...]:
    """The files with a text behind that of a path. A path that leads out of the folder is left out."""
    if path.startswith("/") or ".." in path.split("/"):
        return files
    texts = dict(files)
    texts[path] = texts.get(path, b"") + text
    return tuple(texts.items())


def case_inputs() -> List[Input]:
    """The inputs of all cases, in the order of their files."""
    inputs = []
    for path in sorted(DATA.glob("*.cases")):
        cases = re.split(rb"^=== .*$", path.read_bytes(), flags=re.MULTILINE)[1:]
        inputs += [input_of_case(case) for case in cases]
    return [made for made in inputs if made.kconfig and len(made.kconfig) <= MOST_OF_A_CASE + 2_000]


# ------------------------------------------------------------------------------------------------ generated, and a tree


def generated_inputs() -> List[Input]:
    """Random trees with edits of their user values."""
    inputs = []
    for number in range(GENERATED):
        case = random_case(0, number)
        stream = "".join(f"{edit}\n" for edit in case.edits)
        inputs.append(Input(case.tree.encode(), stream=stream.encode()))
    return inputs


def tree_inputs(folder: Path) -> List[Input]:
    """The Kconfigs of a tree on disk, each by itself, without its `source` lines."""
    paths = sorted(path for path in folder.rglob("Kconfig*") if path.is_file())
    short = [path for path in paths if path.stat().st_size <= MOST_OF_A_FILE][:MOST_FILES_OF_A_TREE]
    return [Input(SOURCE_LINE.sub(b"", path.read_bytes())) for path in short]


def all_inputs(trees: List[Path]) -> List[List[Input]]:
    """All inputs by where they come from."""
    return [pool for pool in (case_inputs(), generated_inputs(), *map(tree_inputs, trees)) if pool]


# ------------------------------------------------------------------------------------------------ configs and streams


def names_of(kconfig: bytes) -> List[bytes]:
    """The names that a Kconfig defines, and two that it may not."""
    return [*SYMBOL_LINE.findall(kconfig)[:60], b"MODULES", b"NOWHERE"]


def config_line(random: Random, names: List[bytes], prefix: bytes) -> bytes:
    name = prefix + random.choice(names)
    roll = random.randrange(10)
    if roll == 0:
        return b"# " + name
    if roll < 3:
        return b"# " + name + b" is not set"
    return name + b"=" + random.choice(VALUES)


def config_of(random: Random, kconfig: bytes, prefix: bytes) -> bytes:
    """A `.config` for some of the symbols of a Kconfig."""
    names = names_of(kconfig)
    lines = [config_line(random, names, prefix) for _ in range(random.randrange(12))]
    return b"".join(line + b"\n" for line in lines)


def command(random: Random, names: List[bytes], prefix: bytes) -> bytes:
    name = random.choice(names)
    roll = random.randrange(20)
    if roll < 7:
        return b"set " + name + b" " + random.choice(VALUES).strip(b'"')
    if roll < 9:
        return b"unset " + name
    if roll < 12:
        return b"show " + name
    if roll < 14:
        count = random.randrange(5)
        lines = b"".join(config_line(random, names, prefix) + b"\n" for _ in range(count))
        return (random.choice((b"load ", b"merge ")) + b"%d\n" % count + lines)[:-1]
    return random.choice(QUERIES)


def stream_of(random: Random, kconfig: bytes, prefix: bytes) -> bytes:
    """A stream of commands on the symbols of a Kconfig."""
    names = names_of(kconfig)
    commands = [command(random, names, prefix) for _ in range(random.randrange(1, 16))]
    return b"".join(line + b"\n" for line in commands)
