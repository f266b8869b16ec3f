#!/usr/bin/env python3
"""Compares kconf with the kernel's conf on a tree that tools/expand_kconfig.py has written.

    tools/compare_conf.py --kconf PROGRAM --conf PROGRAM [--edits 300] [--seeds 3] [--original FOLDER] [--lines 5]
                          FOLDER KCONFIG [NAME=VALUE]...

It is not part of the gate. Both read KCONFIG in FOLDER (conf in the folder of --original, where it is given), kconf
with the words NAME=VALUE as variables, conf with them in its environment. conf is that of Debian's package
linux-kbuild-6.1, or what tools/compare_trees.sh builds.

Each target is run without a .config, and on one .config of random lines for each seed; allnoconfig and allyesconfig
take none. For each target and kind of difference the number of differing lines is printed, with some of them, and at
the end how many lines were compared. The status is 1 where a line differs and no kind explains it, or a program fails,
else 0. docs/COMPATIBILITY.md says what the kinds are.
"""

from __future__ import annotations

import argparse
import os
import random
import re
import subprocess
import sys
import tempfile
from collections import Counter, defaultdict
from dataclasses import dataclass, field
from pathlib import Path

CONFIG_LINE = re.compile(r"(?:# )?CONFIG_(\w+)(?:=| is not set)(.*)")
DEFINE_LINE = re.compile(r"#define CONFIG_(\w+?)(_MODULE)? (.*)")
TARGETS = ("olddefconfig", "savedefconfig", "listnewconfig", "genheader", "genmake", "allnoconfig", "allyesconfig")
FILELESS = ("allnoconfig", "allyesconfig")
# What conf writes beside the .config.
SYNCED = {"genheader": "header.h", "genmake": "auto.conf"}
UNEXPLAINED = "unexplained"
NOT_RUN = "conf or kconf fails"
# An older conf asks without end for a number that has no value, so the files that it writes are limited to 32 MiB.
LIMITED = ("sh", "-c", 'ulimit -f 65536; exec "$@"', "conf")

# The lines of a target, by symbol.
Lines = dict[str, str]


@dataclass
class Tree:
    """A tree, both programs, and what the text of the tree says of its symbols."""

    kconf: Path
    conf: Path
    folder: Path
    original: Path
    kconfig: str
    words: list[str]
    implied: set[str] = field(default_factory=set)
    ranged: set[str] = field(default_factory=set)
    members: set[str] = field(default_factory=set)
    tristates: set[str] = field(default_factory=set)

    def read_text(self) -> None:
        """Finds the symbols that an `imply` names, those with a `range`, tristates, and members of choices."""
        for path in self.folder.rglob("*"):
            if path.is_file():
                self.read_file(path.read_text())

    def read_file(self, text: str) -> None:
        name, is_in_choice = "", False
        for line in text.split("\n"):
            words = line.split()
            if words[:1] in (["choice"], ["endchoice"]) and len(words) == 1:
                is_in_choice = words[0] == "choice"
            elif len(words) > 1 and words[0] in ("config", "menuconfig"):
                name = words[1]
                self.members.update([name] if is_in_choice else [])
            elif len(words) > 1 and words[0] == "imply":
                self.implied.add(words[1])
            elif words[:1] == ["range"]:
                self.ranged.add(name)
            elif words[:1] in (["tristate"], ["def_tristate"]):
                self.tristates.add(name)

    def run_kconf(self, target: str, config: Path | None) -> str:
        given = [] if target in FILELESS else [str(config or "-")]
        command = [self.kconf, target, self.kconfig, *given, *self.words]
        done = subprocess.run(command, cwd=self.folder, capture_output=True, text=True)
        if done.returncode:
            raise RuntimeError(f"kconf {target}: status {done.returncode}: {done.stderr[:500]}")
        return done.stdout

    def run_conf(self, target: str, config: Path | None, work: Path) -> str:
        """What conf writes for a target, or prints for listnewconfig."""
        path, saved = work / "config", work / "saved"
        path.unlink(missing_ok=True)
        if config:
            path.write_text(config.read_text())
        elif target not in FILELESS:
            path.write_text("")
        option, output = f"--{target}", path
        if target == "savedefconfig":
            option, output = f"--savedefconfig={saved}", saved
        elif target in SYNCED:
            option, output = "--syncconfig", work / SYNCED[target]
            self.call_conf("--olddefconfig", path, work)
        done = self.call_conf(option, path, work)
        return done if target == "listnewconfig" else output.read_text()

    def call_conf(self, option: str, path: Path, work: Path) -> str:
        passed = dict(word.split("=", 1) for word in self.words)
        synced = {"KCONFIG_AUTOHEADER": work / SYNCED["genheader"], "KCONFIG_AUTOCONFIG": work / SYNCED["genmake"]}
        files = {"KCONFIG_CONFIG": path, **synced}
        kept = {name: os.environ[name] for name in ("PATH", "HOME") if name in os.environ}
        environment = {**kept, **passed, **{name: str(path) for name, path in files.items()}}
        environment["KCONFIG_RUSTCCFG"] = str(work / "rustc_cfg")
        said = work / "said"
        with said.open("w") as output:
            done = subprocess.run(
                [*LIMITED, self.conf, option, self.kconfig], cwd=self.original, env=environment,
                stdin=subprocess.DEVNULL, stdout=output, stderr=subprocess.STDOUT,
            )
        if done.returncode:
            raise RuntimeError(f"conf {option}: status {done.returncode}: {said.read_text(errors='replace')[-300:]!r}")
        return said.read_text()


def lines_of(target: str, text: str) -> Lines:
    """The lines of a text that say something of a symbol."""
    pattern = DEFINE_LINE if target == "genheader" else CONFIG_LINE
    return {match[1]: line for line in text.split("\n") if (match := pattern.fullmatch(line))}


def random_config(tree: Tree, edits: int, seed: int, work: Path) -> str:
    """A .config of some lines, for symbols that conf lists as new ones where there is no line."""
    chooser = random.Random(seed)
    visible = sorted(lines_of("listnewconfig", tree.run_conf("listnewconfig", None, work)).items())
    lines = (random_line(chooser, tree, name, line) for name, line in chooser.sample(visible, min(edits, len(visible))))
    return "".join(f"{line}\n" for line in lines)


def random_line(chooser: random.Random, tree: Tree, name: str, line: str) -> str:
    """A line that gives a symbol a random value of its type."""
    value = line.partition("=")[2]
    if value in ("n", "m", "y"):
        value = chooser.choice("nmy" if name in tree.tristates else "ny")
        return f"# CONFIG_{name} is not set" if value == "n" else f"CONFIG_{name}={value}"
    if value.startswith('"'):
        return f'CONFIG_{name}="text"'
    return f"CONFIG_{name}={hex(chooser.randrange(4096)) if value.startswith('0x') else chooser.randrange(40)}"


def kind_of(tree: Tree, target: str, name: str, of_conf: str, of_kconf: str) -> str:
    """The kind of a line that differs. Empty texts stand for lines that are not there."""
    if of_conf and of_conf.replace('"', "") == of_kconf and target == "genmake":
        return "values for make: an older conf writes a string with its quotes"
    is_without_line = of_conf == f"# CONFIG_{name} is not set" and not of_kconf
    if is_without_line and name in tree.implied and target != "savedefconfig":
        return "an imply whose symbol depends on what is n: no line"
    if target == "savedefconfig" and name in tree.members:
        return "default file: which lines a choice has"
    if target == "savedefconfig" and not (of_conf and of_kconf):
        return "default file: conf compares with the symbol's default, kconf with the value without the user's own"
    if target == "listnewconfig" and name in tree.members:
        return "new list: of a choice kconf lists the selected member, while none is chosen; conf lists each without a line"
    if target == "listnewconfig" and of_conf and not of_kconf and name in tree.ranged:
        return "new list: conf lists a number whose value is outside of its range"
    if target == "listnewconfig" and of_conf and not of_kconf:
        return "new list: conf lists a symbol that can have one value only"
    if target == "genheader" and not of_conf.rpartition(" ")[2] and not of_kconf:
        return "header: an int or a hex without a value"
    return UNEXPLAINED


def compare(tree: Tree, target: str, config: Path | None, work: Path) -> tuple[int, list[tuple[str, str, str, str]]]:
    """The number of lines of conf; and the kind, the symbol, and both lines of each symbol for which they differ."""
    try:
        of_conf = lines_of(target, tree.run_conf(target, config, work))
        of_kconf = lines_of(target, tree.run_kconf(target, config))
    except RuntimeError as fault:
        print(f"{target}, {config.name if config else 'no .config'}: {fault}", flush=True)
        return 0, [(NOT_RUN, target, "", "")]
    names = [name for name in {**of_conf, **of_kconf} if of_conf.get(name, "") != of_kconf.get(name, "")]
    given = config.name if config else "no .config"
    print(f"{target}, {given}: {len(of_conf)} lines of conf, {len(of_kconf)} of kconf, {len(names)} differ", flush=True)
    pairs = ((name, of_conf.get(name, ""), of_kconf.get(name, "")) for name in names)
    kinds = [(kind_of(tree, target, name, conf, kconf), name, conf, kconf) for name, conf, kconf in pairs]
    return len(of_conf), kinds


def print_kinds(differences: list[tuple[str, str, str, str]], lines: int) -> Counter[str]:
    examples = defaultdict(list)
    for kind, name, of_conf, of_kconf in differences:
        examples[kind].append(f"    {name}: conf `{of_conf}`, kconf `{of_kconf}`")
    for kind, found in examples.items():
        print(f"  {len(found)}: {kind}", *found[: len(found) if kind == UNEXPLAINED else lines], sep="\n")
    return Counter({kind: len(found) for kind, found in examples.items()})


def parse_words() -> argparse.Namespace:
    parser = argparse.ArgumentParser(description=__doc__, formatter_class=argparse.RawDescriptionHelpFormatter)
    parser.add_argument("--kconf", type=Path, required=True, metavar="PROGRAM")
    parser.add_argument("--conf", type=Path, required=True, metavar="PROGRAM")
    parser.add_argument("--edits", type=int, default=300, help="lines of a random .config")
    parser.add_argument("--seeds", type=int, default=3, help="random .configs")
    parser.add_argument("--original", type=Path, metavar="FOLDER", help="the tree that conf reads")
    parser.add_argument("--lines", type=int, default=5, help="examples of each kind")
    parser.add_argument("--targets", nargs="+", default=TARGETS, choices=TARGETS)
    parser.add_argument("folder", type=Path, metavar="FOLDER")
    parser.add_argument("kconfig", metavar="KCONFIG")
    parser.add_argument("words", nargs="*", metavar="NAME=VALUE")
    return parser.parse_args()


def main() -> int:
    given = parse_words()
    kconf, conf = given.kconf.resolve(), given.conf.resolve()
    tree = Tree(kconf, conf, given.folder, given.original or given.folder, given.kconfig, given.words)
    tree.read_text()
    counts: Counter[str] = Counter()
    total = 0
    with tempfile.TemporaryDirectory() as folder:
        configs: list[Path | None] = [None]
        for seed in range(1, given.seeds + 1):
            configs.append(Path(folder, f"random{seed}"))
            configs[-1].write_text(random_config(tree, given.edits, seed, Path(folder)))
        for target in given.targets:
            for config in configs[:1] if target in FILELESS else configs:
                lines, differences = compare(tree, target, config, Path(folder))
                total += lines
                counts += print_kinds(differences, given.lines)
    print(f"{total} lines, {sum(counts.values())} differ")
    for kind, count in counts.most_common():
        print(f"{count} {kind}")
    return 1 if counts[UNEXPLAINED] or counts[NOT_RUN] else 0


if __name__ == "__main__":
    sys.exit(main())
