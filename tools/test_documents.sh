#!/usr/bin/env bash
# Runs the command lines of docs/TASKS.md, docs/COMMANDS.md, docs/PROTOCOL.md and README.md, and compares what they
# print with what the documents show.
#
#     tools/test_documents.sh PROGRAM [KERNEL]
#
# PROGRAM is a built kconf. Each part below a `##` heading is run in a directory of its own, with kconf on the path and
# the checkout as ~/kconf. Of its fenced blocks
#
# - one whose first line is "```KIND PATH" is the text of that file;
# - one of the kind `sh` is run by bash, and ends the part where a command fails; "```sh in DIRECTORY" is run there;
#   "```sh on Linux 6.1" is run in KERNEL, and passed over without it;
# - one of the kind `output` is what the `sh` block before it has to print, standard error too. A block that prints
#   something needs one, except in the directory `linux`, where other programs print too;
# - one of the kind `session` has commands of a session on the left, and the replies to them after two blanks or more.
#
# Files before the first of these headings are there in each part of the document, and a part that runs nothing has no
# other blocks. The directory `linux` of a part is a small tree with the makefiles and the functions of a kernel. The
# blocks of README.md below "Get it" are not run: they build the program. What docs/TASKS.md quotes in its table of what
# `why` says has to be in a case of crates/kc_cases/data that runs it.
#
# KERNEL is a directory with the tree of Debian's package linux-source-6.1, expanded into `expanded` by the recipe of
# docs/TREES.md with the variables in `words`, and `config-5.10` and `config-6.1`, the amd64 configurations of Debian's
# linux-config-5.10 and linux-config-6.1.
#
# A line is written for each part; the status is 1 where one fails, or where a document has none.
set -euo pipefail

if [ $# -lt 1 ] || [ $# -gt 2 ]; then
    echo "usage: tools/test_documents.sh PROGRAM [KERNEL]" >&2
    exit 2
fi
root=$(cd "$(dirname "${BASH_SOURCE[0]}")/.." && pwd)
work=$(mktemp -d)
trap 'rm -rf "$work"' EXIT
mkdir "$work/bin"
ln -s "$(realpath "$1")" "$work/bin/kconf"

python3 - "$root" "$work" "${2:+$(realpath "$2")}" <<'PYTHON'
import os, re, shlex, subprocess, sys
from pathlib import Path
from typing import Optional

root, work, kernel = Path(sys.argv[1]), Path(sys.argv[2]), sys.argv[3]
KERNEL = "on Linux 6.1"
DOCUMENTS = ("docs/TASKS.md", "docs/COMMANDS.md", "docs/PROTOCOL.md", "README.md")
NOT_RUN = ("Get it",)
BLOCK = re.compile(r"^```(\S+)(?: ([^\n]*))?\n(.*?)^```$", re.MULTILINE | re.DOTALL)

# The table that quotes `why`, and the cases that have its words.
QUOTES = ("docs/TASKS.md", "| What `why` says |")
CASES = "crates/kc_cases/data"

# A tree whose makefiles give `conf` its variables as those of a kernel do, and whose Kconfig runs functions.
LINUX = {
    "Makefile": "export ARCH ?= x86\nexport SRCARCH = $(ARCH)\nexport srctree = .\nexport CC ?= gcc\n"
    "%config:\n\t$(MAKE) --no-print-directory -f scripts/Makefile.build obj=scripts/kconfig $@\n",
    "scripts/Makefile.build": "%config:\n\techo there is no rule for $@ >&2; false\n",
    "scripts/Kconfig.include": 'success = $(shell,{ $(1); } >/dev/null 2>&1 && echo y || echo n)\ncc-name := $(shell,echo $(CC))\n',
    "Kconfig": 'source "scripts/Kconfig.include"\nsource "arch/$(SRCARCH)/Kconfig"\n',
    "arch/x86/Kconfig": 'config X86\n\tdef_bool $(success,true)\nconfig CC_NAME\n\tstring\n\tdefault "$(cc-name)"\n'
    'config NET\n\tbool "Network"\n',
    ".config": "CONFIG_NET=y\n",
}


def write(folder, files):
    for path, text in files.items():
        (folder / path).parent.mkdir(parents=True, exist_ok=True)
        (folder / path).write_text(text)


def run(text, folder):
    """What the commands print, and their status."""
    environment = dict(os.environ, HOME=str(work), LC_ALL="C", PATH=f"{work}/bin:{os.environ['PATH']}")
    done = subprocess.run(
        ["bash", "-euo", "pipefail", "-c", text], cwd=folder, env=environment,
        stdin=subprocess.DEVNULL, stdout=subprocess.PIPE, stderr=subprocess.STDOUT, text=True,
    )
    return done.stdout, done.returncode


def mistake(part, folder):
    """Runs the blocks of a part. What is wrong with the first that fails, or nothing."""
    printed: Optional[str] = ""
    for kind, words, text in [*BLOCK.findall(part), ("end", "", "")]:
        if kind == "output":
            if printed not in (None, text):
                return f"it prints\n{printed}in place of\n{text}"
            printed = ""
            continue
        if printed:
            return f"it prints what is not shown\n{printed}"
        if kind == "session":
            rows = [re.split(r"^ +|  +", line, maxsplit=1) + [""] for line in text.splitlines()]
            commands, replies = ("".join(row[side] + "\n" for row in rows if row[side]) for side in (0, 1))
            printed, _ = run(f"printf %s {shlex.quote(commands)} | kconf session Kconfig -", folder)
            if printed != replies:
                return f"it replies\n{printed}in place of\n{replies}"
            printed = ""
        elif kind == "sh" and words == KERNEL:
            printed = run(text, Path(kernel))[0] if kernel else None
        elif kind == "sh":
            place = folder / words.removeprefix("in ") if words else folder
            printed, status = run(text, place)
            if status:
                return f"status {status}: {text}{printed}"
            printed = printed if not words else ""
        elif words:
            write(folder, {words: text})
        elif kind != "end":
            return f"a block of the kind {kind} that is no file"
    return ""


def pieces_of(text):
    """The files before the first heading, and the heading and the text of each part that has a block."""
    head, *parts = re.split(r"^## ", text, flags=re.MULTILINE)
    files = {words: block for _, words, block in BLOCK.findall(head)}
    named = [(part.split("\n", 1)[0], part) for part in parts if BLOCK.search(part)]
    return files, [(heading, part) for heading, part in named if heading not in NOT_RUN]


def words_not_said(text, title):
    """What the first column of a table quotes that no case of `why` has."""
    table = text[text.index(title):].split("\n\n", 1)[0].split("\n")[2:]
    quotes = [quote for row in table for quote in re.findall(r"`([^`]+)`", row.split("|")[1])]
    cases = "".join(path.read_text(encoding="utf-8") for path in (root / CASES).glob("*.cases"))
    runs = re.findall(r"^--- run why .*\n(?:(?!---|===).*\n)*(?:--- errors\n(?:(?!---|===).*\n)*)?", cases, re.MULTILINE)
    missing = [quote for quote in quotes if not any(quote in run for run in runs)]
    return missing if quotes else [f"anything of {title}"]


(work / "kconf").symlink_to(root)
failed = number = 0
for name in DOCUMENTS:
    text = (root / name).read_text(encoding="utf-8")
    files, parts = pieces_of(text)
    has_nameless = files.pop("", None) is not None
    for heading, part in parts:
        number += 1
        folder = work / f"part{number}"
        write(folder / "linux", LINUX)
        write(folder, {"Kconfig": 'config NET\n\tbool "Network"\n', ".config": "CONFIG_NET=y\n", **files})
        found = mistake(part, folder)
        failed += bool(found)
        is_passed_over = not kernel and KERNEL in part
        print(f"{name}: {heading}: {found or ('passed over without KERNEL' if is_passed_over else 'as it is shown')}")
    if has_nameless or not parts:
        failed += 1
        print(f"{name}: {'a block before the first heading is no file' if parts else 'nothing is run'}")
    if name == QUOTES[0]:
        for word in words_not_said(text, QUOTES[1]):
            failed += 1
            print(f"{name}: `why` never says {word}")
sys.exit(1 if failed else 0)
PYTHON
