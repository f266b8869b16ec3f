"""The measurements of bench/hostile.sh: time_hostile.py PROGRAM CONF FOLDER [WORD..].

With words, only the shapes whose names have one of them are measured.
"""

import os
import resource
import shutil
import signal
import statistics
import subprocess
import sys

from hostile_shapes import SHAPES, WORDS, make

RUNS = 5
MOST_GROWTH = 1.3
MOST_TIMES = 2
MOST_BYTES_EACH = 100
# Where references put a long text in place again and again, each takes room. What blocks depend on takes it once.
MOST_BYTES = {"long texts": 1_013, "long prompts": 728, "blocks of eight names": 40}
MOST_SECONDS = 20
MOST_MEMORY = 3 << 30
# Below these a cost is noise: a smaller one counts as this much.
LEAST_SECONDS = 0.004
LEAST_MEMORY = 2 << 20

# What makes conf do the same.
CONF_OPTIONS = {
    "olddefconfig": "--olddefconfig",
    "listnewconfig": "--listnewconfig",
    "savedefconfig": "--savedefconfig=saved",
}

program, conf, work = sys.argv[1:4]
wanted = sys.argv[4:]


class Failed(Exception):
    """A command did not end in time, or with another status."""


def limit_memory():
    resource.setrlimit(resource.RLIMIT_AS, (MOST_MEMORY, MOST_MEMORY))


def cost_of(folder, command, environment=None, wanted_status=0):
    """The seconds of processor time, and the bytes of memory at its peak, of one run. What wait4 says of memory would
    count this program's own, from which the other is started, so time(1) stands between them."""
    memory = os.path.join(work, "memory")
    stdin = os.path.join(folder, "stdin")
    with open(stdin if os.path.exists(stdin) else os.devnull, "rb") as stream:
        child = subprocess.Popen(
            ["/usr/bin/time", "--quiet", "--format", "%M", "--output", memory, *command],
            cwd=folder,
            env=environment or {},
            stdin=stream,
            stdout=subprocess.DEVNULL,
            stderr=subprocess.DEVNULL,
            preexec_fn=limit_memory,
            start_new_session=True,
        )
    signal.signal(signal.SIGALRM, lambda *_: os.killpg(child.pid, signal.SIGKILL))
    signal.setitimer(signal.ITIMER_REAL, MOST_SECONDS)
    _, ended, usage = os.wait4(child.pid, 0)
    signal.setitimer(signal.ITIMER_REAL, 0)
    child.returncode = ended
    if os.WIFSIGNALED(ended):
        raise Failed(f"no end in {MOST_SECONDS} s")
    status = os.WEXITSTATUS(ended)
    if status != wanted_status:
        raise Failed(f"signal {status - 128}" if status > 128 else f"status {status}")
    with open(memory) as file:
        return usage.ru_utime + usage.ru_stime, int(file.read()) * 1024


def middle_cost(folder, command, environment=None, wanted_status=0, prepare=None):
    """The medians of the costs of some runs, each after `prepare`; a run of a second or more is the only one."""
    found = []
    while len(found) < RUNS and (not found or found[0][0] < 1):
        if prepare:
            prepare()
        found.append(cost_of(folder, command, environment, wanted_status))
    return tuple(statistics.median(costs) for costs in zip(*found))


def kconf_cost(folder, target, status, words):
    """What a target costs on what a folder has, with these words."""
    config = "config" if os.path.exists(os.path.join(folder, "config")) else "-"
    return middle_cost(folder, [program, target, "Kconfig", config, *words], wanted_status=status)


def conf_cost(folder, target):
    """What conf takes for the same: none where it has no such target, and why it failed where it did."""
    option = CONF_OPTIONS.get(target)
    if option is None:
        return None, "-"
    out = os.path.join(work, "out.config")
    source = os.path.join(folder, "config")

    def put_config():
        """Puts the .config there again, which conf writes over."""
        if os.path.exists(source):
            shutil.copyfile(source, out)
        elif os.path.exists(out):
            os.remove(out)

    try:
        seconds, memory = middle_cost(folder, [conf, option, "Kconfig"], {"KCONFIG_CONFIG": out}, prepare=put_config)
        return seconds, f"{seconds:.3f} s, {memory / 2**20:.0f} MiB"
    except Failed as failed:
        return None, str(failed)


def growth(small, great, least, times):
    """What each unit costs in the greater tree, against the smaller."""
    return max(great, least) / max(small, least) / times


def bytes_of(folder):
    """How many bytes the files of a folder have."""
    return sum(entry.stat().st_size for entry in os.scandir(folder))


def measure(shape, target, unit, few, many, status, base):
    """Prints what a shape costs at both sizes, and says whether it is kept."""
    costs = []
    for size in (few, many):
        folder = make(work, shape, size)
        try:
            words = WORDS[shape](size) if shape in WORDS else []
            seconds, memory = kconf_cost(folder, target, status, words)
        except Failed as failed:
            beside = conf_cost(folder, target)[1]
            print(f"| {shape} | {few:,}, {many:,} | {size:,}: {failed} | | | | {beside} | | no |", flush=True)
            return False
        costs.append((max(seconds - base[0], 0), max(memory - base[1], 0), seconds, memory))
    (few_seconds, few_memory, _, _), (own_seconds, own_memory, seconds, memory) = costs
    conf_seconds, beside = conf_cost(folder, target)
    time_growth = growth(few_seconds, own_seconds, LEAST_SECONDS, many / few)
    memory_growth = growth(few_memory, own_memory, LEAST_MEMORY, many / few)
    bytes_each = own_memory / bytes_of(folder)
    kept = time_growth <= MOST_GROWTH and memory_growth <= MOST_GROWTH
    kept = kept and (own_memory <= LEAST_MEMORY or bytes_each <= MOST_BYTES.get(shape, MOST_BYTES_EACH))
    times = "-"
    if conf_seconds is not None:
        ratio = growth(conf_seconds, seconds, LEAST_SECONDS, 1)
        kept = kept and ratio <= MOST_TIMES
        times = f"{ratio:.2f}"
    each = f"{own_seconds / many * 1e6:.3f} us a {unit}"
    greatest = f"{seconds:.3f} s, {memory / 2**20:.0f} MiB"
    ratios = f"{time_growth:.2f}, {memory_growth:.2f}"
    verdict = "yes" if kept else "no"
    cells = (shape, f"{few:,}, {many:,}", greatest, each, f"{bytes_each:.0f}", ratios, beside, times, verdict)
    print(f"| {' | '.join(cells)} |", flush=True)
    return kept


def base_cost():
    """What the program costs on one symbol."""
    folder = os.path.join(work, "base")
    os.makedirs(folder, exist_ok=True)
    with open(os.path.join(folder, "Kconfig"), "w") as file:
        file.write('config A\n\tbool "a"\n')
    return middle_cost(folder, [program, "olddefconfig", "Kconfig", "-"])


def main():
    shapes = [shape for shape in SHAPES if not wanted or any(word in shape[0] for word in wanted)]
    base = base_cost()
    print(f"One symbol: {base[0] * 1000:.1f} ms, {base[1] / 2**20:.0f} MiB, which the growths leave out.")
    print("| Shape | Sizes | The greater | Each | Bytes a byte | Growth: time, memory | `conf`, the greater | Times conf | Kept |")
    print("|---|---|---|---|---|---|---|---|---|", flush=True)
    kept = True
    for shape in shapes:
        kept = measure(*shape, base) and kept
    return kept


if __name__ == "__main__":
    sys.exit(not main())
