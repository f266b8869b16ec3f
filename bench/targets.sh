#!/usr/bin/env bash
# What `kconf olddefconfig` costs as a whole, beside `conf` of the kernel (Debian's package linux-kbuild-6.1).
#
#     bench/targets.sh [PROGRAM [TREE..] [CONFIG] [NAME=VALUE..]]
#
# Without PROGRAM it builds kconf by rt. Each TREE is a folder with a Kconfig, as tools/expand_kconfig.py writes it, with
# the words NAME=VALUE that it printed: a flat tree where its Kconfig has no `source` line, else a split one. Without TREE
# the trees are those of bench/make_tree.py. CONFIG is the file of a .config. It compares, in turns, medians of eleven
# runs:
#
# - for each tree, without a .config and with CONFIG, `kconf olddefconfig` with `conf --olddefconfig`: user and system time
#   (wanted: at most 0.36), and memory at its peak (at most 1.0 of a flat tree, and 0.9 of a split one);
# - without TREE: 1,500 files with one (at most 1.3), and 1,000 files whose paths have a reference with 1,000 whose paths
#   have none (at most 1.5).
#
# `conf` writes its .config below TMPDIR, so that is best a folder in memory. The status is 0 where all are kept, else 1.
set -euo pipefail
shopt -s inherit_errexit

readonly CONF=/usr/lib/linux-kbuild-6.1/scripts/kconfig/conf

bench=$(cd "$(dirname "${BASH_SOURCE[0]}")" && pwd)
readonly bench
# shellcheck source=bench/build.sh
source "$bench/build.sh"

kconf=$(realpath "${1:-$(build_kconf)}")
[ -x "$CONF" ] || install_packages linux-kbuild-6.1
work=$(mktemp -d)
trap 'rm -rf "$work"' EXIT
trees=()
words=()
config=
for word in "${@:2}"; do
    if [ -d "$word" ]; then
        trees+=("$(realpath "$word")")
    elif [[ $word == *=* ]]; then
        words+=("$word")
    else
        config=$(realpath -e "$word")
    fi
done
made=
if [ ${#trees[@]} -eq 0 ]; then
    made=$work/made
    mkdir -p "$made/one" "$made/many"
    python3 "$bench/make_tree.py" one "$made/one"
    python3 "$bench/make_tree.py" many "$made/many"
    trees=("$made/one" "$made/many")
fi

python3 - "$CONF" "$kconf" "$work" "$made" "$config" "${trees[@]}" "${words[@]}" <<'PYTHON'
import os, re, shutil, statistics, subprocess, sys

RUNS = 11
conf, kconf, work, made, config = sys.argv[1:6]
trees = [word for word in sys.argv[6:] if "=" not in word]
words = [word for word in sys.argv[6:] if "=" in word]
conf_file = os.path.join(work, "config")


def usage_of(folder, command, environment=None, source=None):
    """The processor time in seconds, and the memory at its peak in KiB, of a command that must end with status 0. Its
    .config is a copy of a source, or none."""
    environment = dict(os.environ, KCONFIG_CONFIG=conf_file, **(environment or {}))
    if source:
        shutil.copyfile(source, conf_file)
    child = subprocess.Popen(
        command, cwd=folder, env=environment, stdin=subprocess.DEVNULL, stdout=subprocess.DEVNULL, stderr=subprocess.PIPE
    )
    errors = child.stderr.read()
    _, status, usage = os.wait4(child.pid, 0)
    if status:
        sys.exit(f"{' '.join(command)}: {errors.decode()}")
    if os.path.exists(conf_file):
        os.remove(conf_file)
    return usage.ru_utime + usage.ru_stime, usage.ru_maxrss


def compare(name, left, right, limits):
    """Whether the medians of the one are within the limits of those of the other; the two take turns."""
    found = {"left": [], "right": []}
    for turn in range(RUNS + 1):  # the first turn only warms up
        for side, run in (("left", left), ("right", right)):
            usage = usage_of(*run)
            if turn:
                found[side].append(usage)
    kept = True
    for at, (what, unit, factor, most) in enumerate(limits):
        over, under = (statistics.median(usage[at] for usage in found[side]) for side in ("left", "right"))
        ratio = over / under
        kept = kept and ratio <= most
        print(f"{name}, {what}: {over * factor:.1f} {unit} against {under * factor:.1f} {unit}: {ratio:.2f} (wanted: at most {most})")
    return kept


def named_files(folder, path):
    """A tree of 1,000 files of one symbol, each named by such a path."""
    os.mkdir(folder)
    os.mkdir(os.path.join(folder, "parts"))
    with open(os.path.join(folder, "Kconfig"), "w") as top:
        top.write("PARTS := parts\n")
        for number in range(1000):
            top.write(f'source "{path}/f{number}"\n')
            with open(os.path.join(folder, "parts", f"f{number}"), "w") as file:
                file.write(f'config S{number}\n\tbool "symbol {number}"\n')


TIME = ("user and system time", "ms", 1000)
MEMORY = ("memory at its peak", "MiB", 1 / 1024)
environment = dict(word.split("=", 1) for word in words)


def is_flat(tree):
    with open(os.path.join(tree, "Kconfig"), errors="replace") as file:
        return not any(re.match(r"\s*o?r?source\s*[\"']", line) for line in file)


def against_conf(tree, source):
    """Whether a target on a tree, with a .config or none, is within the limits of conf's."""
    flat = is_flat(tree)
    name = f"olddefconfig of a {'flat' if flat else 'split'} tree {'with CONFIG' if source else 'without CONFIG'}"
    return compare(
        name,
        (tree, [kconf, "olddefconfig", "Kconfig", source or "-", *words]),
        (tree, [conf, "--olddefconfig", "Kconfig"], environment, source),
        [(*TIME, 0.36), (*MEMORY, 1.0 if flat else 0.9)],
    )


sources = [None, config] if config else [None]
kept = all([against_conf(tree, source) for tree in trees for source in sources])
if made:
    target = [kconf, "olddefconfig", "Kconfig", "-"]
    one, many = (os.path.join(made, name) for name in ("one", "many"))
    kept &= compare("1,500 files against one", (many, target), (one, target), [(*TIME, 1.3)])
    plain, referring = os.path.join(work, "plain"), os.path.join(work, "referring")
    named_files(plain, "parts")
    named_files(referring, "$(PARTS)")
    kept &= compare("1,000 paths with a reference against plain ones", (referring, target), (plain, target), [(*TIME, 1.5)])
sys.exit(not kept)
PYTHON
