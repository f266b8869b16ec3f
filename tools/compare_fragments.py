#!/usr/bin/env python3
"""Compares the report of `kconf merge` with what the kernel's merge_config.sh and Zephyr's check say of fragments.

    python3 tools/compare_fragments.py PROGRAM CONF FOLDER KCONFIG CONFIG VARIABLES [FRAGMENT]...

FOLDER is an expanded tree (docs/TREES.md), in which KCONFIG is; CONF is the kernel's conf; VARIABLES is the file of the
tree's variables, one NAME=VALUE on each line. The fragments are those of tools/fragments, where none is given.

- merge_config.sh joins CONFIG and the fragments, of each symbol the last line, has conf make the .config by
  `--alldefconfig`, and names each line of them that is not in it verbatim. Here that is done for the fragments' lines.
- Zephyr's kconfig.py loads all with Kconfiglib, and names each symbol whose user value is not its value.

For each line of a fragment that one of the three names it prints which do. A line that another tool names and kconf does
not is false where the symbol has the value that the line gives; where it has not, the status is 1. So it is where kconf
names a line as without effect whose symbol has its value. It needs Kconfiglib (Debian's python3-kconfiglib).
"""

import argparse
import os
import re
import subprocess
import sys
import tempfile
from pathlib import Path

import kconfiglib

from compare_why import readable_copy

LINE = re.compile(r"^(?:CONFIG_(\w+)=(.*)|# CONFIG_(\w+) is not set)$")
LETTERS = {0: "n", 1: "m", 2: "y"}


class Request:
    """A line of a fragment."""

    def __init__(self, path, number, text):
        match = LINE.match(text)
        self.path, self.number, self.text = path, number, text
        self.name = match.group(1) or match.group(3)
        self.value = match.group(2) if match.group(1) else "n"

    def place(self):
        return f"{self.path}:{self.number}"


def requests_of(paths):
    """The lines of fragments, in their order."""
    found = []
    for path in paths:
        for number, text in enumerate(Path(path).read_text("utf-8").split("\n"), 1):
            if LINE.match(text):
                found.append(Request(path, number, text))
    return found


def counting(requests):
    """Of each symbol the last line."""
    last = {request.name: request for request in requests}
    return [request for request in requests if last[request.name] is request]


def joined(config, requests):
    """CONFIG and fragments as merge_config.sh joins them: of each symbol the last line."""
    names = {request.name for request in requests}
    lines = []
    for text in Path(config).read_text("utf-8").split("\n"):
        match = LINE.match(text)
        if not match or (match.group(1) or match.group(3)) not in names:
            lines.append(text)
    return "\n".join(lines + [request.text for request in counting(requests)]) + "\n"


def made_by_conf(conf, folder, kconfig, text, variables):
    """The lines of the .config that conf makes."""
    with tempfile.TemporaryDirectory() as scratch:
        source, made = Path(scratch) / "all.config", Path(scratch) / ".config"
        source.write_text(text, "utf-8")
        environment = dict(os.environ, **variables, KCONFIG_ALLCONFIG=str(source), KCONFIG_CONFIG=str(made))
        subprocess.run([conf, "--alldefconfig", kconfig], cwd=folder, env=environment, check=True, capture_output=True)
        return made.read_text("utf-8").split("\n")


def named_by_merge_config(requests, made):
    """The lines that the .config does not have verbatim."""
    lines = set(made)
    return {request.place() for request in counting(requests) if request.text not in lines}


def named_by_zephyr(folder, kconfig, config, paths, variables):
    """The symbols whose user value is not their value."""
    with tempfile.TemporaryDirectory() as scratch:
        os.environ.update(variables, srctree=readable_copy(folder, scratch))
        tree = kconfiglib.Kconfig(kconfig, warn=False)
    tree.load_config(config)
    for path in paths:
        tree.load_config(path, replace=False)
    names = set()
    for symbol in tree.unique_defined_syms:
        if symbol.user_value is None:
            continue
        is_tri = symbol.type in (kconfiglib.BOOL, kconfiglib.TRISTATE)
        asked = LETTERS[symbol.user_value] if is_tri else symbol.user_value
        if asked != symbol.str_value:
            names.add(symbol.name)
    return names


def named_by_kconf(program, folder, kconfig, config, variables_file, paths):
    """What the report says of each line, the lines that are replaced, and the values of the .config."""
    command = [program, "merge", "-C", folder, "--variables", variables_file, kconfig, config, *paths]
    done = subprocess.run(command, check=True, capture_output=True, encoding="utf-8")
    said, replaced = {}, set()
    for line in done.stderr.split("\n"):
        if match := re.match(r"^(\S+:\d+): (.*)$", line):
            said[match.group(1)] = match.group(2)
        if match := re.search(r" takes the place of .* \((\S+:\d+)\)$", line):
            replaced.add(match.group(1))
    values = {}
    for line in done.stdout.split("\n"):
        if match := LINE.match(line):
            values[match.group(1) or match.group(3)] = match.group(2) if match.group(1) else "n"
    return said, replaced, values, done.stderr.rstrip("\n").split("\n")[-1]


def main():
    parser = argparse.ArgumentParser(description=__doc__, formatter_class=argparse.RawDescriptionHelpFormatter)
    for name in ("program", "conf", "folder", "kconfig", "config", "variables"):
        parser.add_argument(name)
    parser.add_argument("fragments", nargs="*")
    arguments = parser.parse_args()
    fragments = arguments.fragments or [
        str(Path(__file__).resolve().parent / "fragments" / f"{name}.config") for name in ("net", "debug", "board")
    ]
    paths = [str(Path(path).resolve()) for path in fragments]
    config = str(Path(arguments.config).resolve())
    variables_file = str(Path(arguments.variables).resolve())
    variables = dict(line.partition("=")[::2] for line in Path(variables_file).read_text("utf-8").splitlines())
    requests = requests_of(paths)

    program, conf = str(Path(arguments.program).resolve()), str(Path(arguments.conf).resolve())
    said, replaced, values, counts = named_by_kconf(
        program, arguments.folder, arguments.kconfig, config, variables_file, paths
    )
    made = made_by_conf(conf, arguments.folder, arguments.kconfig, joined(config, requests), variables)
    merge_config = named_by_merge_config(requests, made)
    zephyr = named_by_zephyr(arguments.folder, arguments.kconfig, config, paths, variables)

    wrong = 0
    counts_of = {"kconf": 0, "merge_config.sh": 0, "Zephyr": 0}
    for request in requests:
        place = request.place()
        is_last = request in counting(requests)
        tools = {
            "kconf": place in said,
            "merge_config.sh": place in merge_config,
            "Zephyr": is_last and request.name in zephyr,
        }
        if not any(tools.values()):
            continue
        for tool, names in tools.items():
            counts_of[tool] += names
        has_value = values.get(request.name, "n") == request.value
        is_replacing = "takes the place of" in said.get(place, "")
        is_counted = is_last and not is_replacing and place not in replaced
        is_wrong = is_counted and tools["kconf"] == has_value
        wrong += is_wrong
        named = ", ".join(tool for tool, names in tools.items() if names)
        words = said.get(place, "false: the symbol has this value" if has_value else "not named by kconf")
        print(f"{Path(request.path).name}:{request.number}: {named}: {words}{' WRONG' if is_wrong else ''}")
    print(f"{len(requests)} lines; named by " + ", ".join(f"{tool} {count}" for tool, count in counts_of.items()))
    print(f"kconf: {counts}")
    return 1 if wrong else 0


if __name__ == "__main__":
    sys.exit(main())
