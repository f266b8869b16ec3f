"""How the instructions of the shapes of hostile_shapes.py grow: count_hostile.py PROGRAM FOLDER [WORD..].

With words, only the shapes whose names have one of them are counted. Each is run by callgrind at its smaller size and at
three times that. Instructions do not change from run to run, so no other work on the machine is in the way. The growth
is that of each symbol, line, byte or command, without what one symbol takes (wanted: at most 1.3).
"""

import os
import re
import subprocess
import sys

from hostile_shapes import SHAPES, WORDS, make

MOST_GROWTH = 1.3
# Below these instructions a cost is that of the start.
LEAST = 100_000

program, work = sys.argv[1:3]
wanted = sys.argv[3:]


def instructions(folder, target, words):
    """How many instructions a target takes on what a folder has."""
    counts = os.path.join(work, "counts")
    config = "config" if os.path.exists(os.path.join(folder, "config")) else "-"
    stdin = os.path.join(folder, "stdin")
    # A program that checks itself starts itself again unless addresses are fixed.
    command = ["setarch", "-R", "valgrind", "--tool=callgrind", f"--callgrind-out-file={counts}"]
    with open(stdin if os.path.exists(stdin) else os.devnull, "rb") as stream:
        subprocess.run(
            [*command, program, target, "Kconfig", config, *words],
            cwd=folder,
            stdin=stream,
            stdout=subprocess.DEVNULL,
            stderr=subprocess.DEVNULL,
        )
    with open(counts) as file:
        return int(re.search(r"^(?:summary|totals): (\d+)", file.read(), re.MULTILINE).group(1))


def count(shape, target, size, base):
    """Prints the row of a shape, and says whether its growth is kept."""
    counts = []
    for times in (1, 3):
        words = WORDS[shape](times * size) if shape in WORDS else []
        found = instructions(make(work, shape, times * size), target, words)
        counts.append(max(found - base, LEAST))
    few, many = counts
    growth = many / few / 3
    kept = growth <= MOST_GROWTH
    millions = f"{few / 1e6:.1f}, {many / 1e6:.1f}"
    cells = (shape, target, f"{size:,}, {3 * size:,}", millions, f"{growth:.2f}", "yes" if kept else "**no**")
    print(f"| {' | '.join(cells)} |", flush=True)
    return kept


def main():
    os.makedirs(os.path.join(work, "shape"), exist_ok=True)
    with open(os.path.join(work, "shape", "Kconfig"), "w") as file:
        file.write('config A\n\tbool "a"\n')
    base = instructions(os.path.join(work, "shape"), "olddefconfig", [])
    print("| Shape | Target | Sizes | Million instructions | Growth | Kept |")
    print("|---|---|---|---|---|---|", flush=True)
    kept = True
    for shape, target, _, few, _, _ in SHAPES:
        if not wanted or any(word in shape for word in wanted):
            kept = count(shape, target, few, base) and kept
    return kept


if __name__ == "__main__":
    sys.exit(not main())
