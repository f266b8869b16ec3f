"""The measurements of bench/sessions.sh: time_sessions.py PROGRAM FOLDER [WORD..].

The tree is in FOLDER/tree, and the words NAME=VALUE are its variables.
"""

import os
import statistics
import subprocess
import sys
import threading
import time

import kconfiglib

ROUNDS = 11
REPEATS = 9
EDITS = 400
TURNS = 20
CONFIGS = 100
SHOWS = 10_000
LISTS = 20
QUERIES = 100
MERGES = 400
LOADS = 100
MERGED_LINES = 10
LOADED_LINES = 6_000
program, work, *words = sys.argv[1:]


class Session:
    """A session of kconf that is driven through pipes."""

    def __init__(self, folder, words=()):
        command = [program, "session", "Kconfig", "-", *words]
        self.child = subprocess.Popen(command, cwd=folder, stdin=subprocess.PIPE, stdout=subprocess.PIPE)
        self.ask([])  # the tree is there when the first reply is

    def ask(self, commands):
        """How long it takes until all replies to the commands are there, and that to a word that is no command."""
        stream = "".join(f"{command}\n" for command in [*commands, "end"]).encode()
        begin = time.perf_counter()
        writer = threading.Thread(target=self.write, args=(stream,))
        writer.start()
        last = b""
        while not last.endswith(b"refused 1\n"):
            last = last[-10:] + os.read(self.child.stdout.fileno(), 1 << 20)
        took = time.perf_counter() - begin
        writer.join()
        return took

    def write(self, stream):
        self.child.stdin.write(stream)
        self.child.stdin.flush()

    def end(self):
        self.child.stdin.close()
        self.child.wait()


class Library:
    """A session of Kconfiglib."""

    def __init__(self, folder):
        os.chdir(folder)
        os.environ.update(word.split("=", 1) for word in words)
        self.tree = kconfiglib.Kconfig("Kconfig", warn=False)

    def names(self):
        """The names of some symbols that can be n and y, from all over the tree."""
        symbols = (symbol for symbol in self.tree.unique_defined_syms if symbol.choice is None)
        names = [symbol.name for symbol in symbols if {0, 2} <= set(symbol.assignable)]
        return [names[at * 37 % len(names)] for at in range(EDITS)]

    def edit_and_show(self, names, values):
        begin = time.perf_counter()
        for name, value in zip(names, values):
            symbol = self.tree.syms[name]
            symbol.set_value(value)
            symbol.str_value, symbol.visibility, symbol.assignable, symbol.user_value
        return time.perf_counter() - begin

    def write(self):
        begin = time.perf_counter()
        self.tree._config_contents("")
        return time.perf_counter() - begin

    def edit_and_ask(self, name, value, query):
        begin = time.perf_counter()
        self.tree.syms[name].set_value(value)
        query()
        return time.perf_counter() - begin

    def config(self):
        self.tree._config_contents("")

    def defconfig(self):
        self.tree._min_config_contents("")

    def list(self):
        for symbol in self.tree.unique_defined_syms:
            symbol.str_value, symbol.visibility, symbol.assignable, symbol.user_value

    def new(self):
        return [symbol for symbol in self.tree.unique_defined_syms if symbol.user_value is None and symbol.visibility]

    def values(self):
        """The names of the symbols that can be n and y, each with its value."""
        symbols = self.tree.unique_defined_syms
        return [(symbol.name, symbol.str_value) for symbol in symbols if symbol.type in (kconfiglib.BOOL, kconfiglib.TRISTATE)]

    def read(self, path, replace):
        begin = time.perf_counter()
        self.tree.load_config(path, replace=replace)
        return time.perf_counter() - begin


def edits_of(names, turn):
    """The values that the symbols get in a round, y and n by turns, and the commands that set and show them."""
    values = ["ny"[(turn + at) % 2] for at in range(EDITS)]
    lines = (line for name, value in zip(names, values) for line in (f"set {name} {value}", f"show {name}"))
    return values, list(lines)


def time_of_stream(folder, commands):
    """How long a session takes for the commands of a file, with its replies in another."""
    stream, replies = os.path.join(work, "stream"), os.path.join(work, "replies")
    with open(stream, "w") as file:
        file.writelines(f"{command}\n" for command in commands)
    begin = time.perf_counter()
    with open(stream) as source, open(replies, "w") as target:
        subprocess.run([program, "session", "Kconfig", "-", *words], cwd=folder, stdin=source, stdout=target, check=True)
    return time.perf_counter() - begin


def shows_of(names):
    """The commands of some turns of edits, each with `show`, by turns."""
    return [edits_of(names, turn)[1] for turn in range(TURNS)]


def single_edits(names, count):
    """The names and the values of some edits: each of some symbols twice, so that each edit is a change, also where all
    are made again."""
    return [(name, "ny"[(turn + at) % 2]) for turn in range(2) for at, name in enumerate(names[: count // 2])]


def queries_of(names, count, query):
    """The commands of some edits, each with a query, by edits."""
    return [[f"set {name} {value}", query] for name, value in single_edits(names, count)]


def assigned(name, value):
    """The line of a .config that gives a symbol a value."""
    return f"# CONFIG_{name} is not set" if value == "n" else f"CONFIG_{name}={value}"


def merged_lines(names):
    """Two bodies of a few lines, each of which changes what the other made."""
    return [[assigned(name, value) for name in names[:MERGED_LINES]] for value in "yn"]


def loaded_lines(library, names):
    """Two bodies of many lines, in the order of the tree, that differ in those of some symbols."""
    values = library.values()[:LOADED_LINES]
    edited = set(names)
    return [[assigned(name, other if name in edited else value) for name, value in values] for other in "yn"]


def bodies_of(command, bodies, count):
    """Commands that each take a body, by turns."""
    return [[f"{command} {len(body)}", *body] for body in (bodies[at % 2] for at in range(count))]


def time_in_stream(folder, steps):
    """The time that each of some steps adds to a session that reads a file and writes one."""
    commands = [command for step in steps for command in step]
    return (time_of_stream(folder, ["config", *commands]) - time_of_stream(folder, ["config"])) / len(steps)


def time_in_session(session, steps):
    """The time of each of some steps in a session that is driven through pipes."""
    session.ask(["config"])
    return sum(session.ask(step) for step in steps) / len(steps)


def shows_of_library(library, names):
    """The time of a turn of edits in Kconfiglib, each with what `show` says."""
    library.write()
    return sum(library.edit_and_show(names, edits_of(names, turn)[0]) for turn in range(TURNS)) / TURNS


def queries_of_library(library, names, count, query):
    """The time of an edit in Kconfiglib with a query."""
    library.write()
    return sum(library.edit_and_ask(name, value, query) for name, value in single_edits(names, count)) / count


def bodies_of_library(library, bodies, count, replace):
    """The time of reading one of two files in Kconfiglib, by turns."""
    paths = [os.path.join(work, f"body{at}") for at in range(2)]
    for path, body in zip(paths, bodies):
        with open(path, "w") as file:
            file.writelines(f"{line}\n" for line in body)
    library.write()
    return sum(library.read(paths[at % 2], replace) for at in range(count)) / count


def first_of_session(folder):
    """The time of the first `config` of a session."""
    session = Session(folder, words)
    took = session.ask(["config"])
    session.end()
    return took


def report(name, over, under, most):
    """Prints the median ratio of some rounds, with the median times and the extremes, and says whether it is kept."""
    ratios = sorted(left / right for left, right in zip(over, under))
    ratio = statistics.median(ratios)
    times = f"{statistics.median(over) * 1000:.2f} ms against {statistics.median(under) * 1000:.2f} ms"
    print(f"{name}: {times}: {ratio:.3f}, of {ratios[0]:.3f} to {ratios[-1]:.3f} (wanted: at most {most})")
    return ratio <= most


def by_turns(*measures):
    """The times of some measurements, some rounds of them: each round is short, since a machine is slower at times."""
    return zip(*([measure() for measure in measures] for _ in range(REPEATS)))


def compare(what, in_stream, through_pipes, in_library):
    """Compares what a session does, of a stream in a file and through pipes, with the same in Kconfiglib.

    Each of the three makes all its edits by itself, so that none removes what the others have in the caches.
    """
    streamed, piped, called = by_turns(in_stream, through_pipes, in_library)
    kept = report(f"{what}, of a stream in a file", streamed, called, 0.2)
    return kept & report(f"{what}, through pipes", piped, called, 0.2)


def compare_streams(what, folder, steps, in_library, most):
    """Compares what steps of a session take, of a stream in a file, with the same in Kconfiglib."""
    streamed, called = by_turns(lambda: time_in_stream(folder, steps), in_library)
    return report(what, streamed, called, most)


def compare_queries(folder, library, names):
    """Compares edits that each have a query of all symbols."""
    rows = [("list", LISTS, library.list, 0.45), ("new", QUERIES, library.new, 0.45), ("defconfig", QUERIES, library.defconfig, 0.12)]
    return all(
        [
            compare_streams(
                f"an edit with {word}",
                folder,
                queries_of(names, count, word),
                lambda: queries_of_library(library, names, count, query),
                most,
            )
            for word, count, query, most in rows
        ]
    )


def compare_bodies(folder, library, names):
    """Compares a merge of a few lines and a load of many."""
    rows = [
        ("merge", merged_lines(names), MERGES, False, 0.3),
        ("load", loaded_lines(library, names), LOADS, True, 0.15),
    ]
    return all(
        [
            compare_streams(
                f"a {command} of {len(bodies[0]):,} lines",
                folder,
                bodies_of(command, bodies, count),
                lambda: bodies_of_library(library, bodies, count, replace),
                most,
            )
            for command, bodies, count, replace, most in rows
        ]
    )


def against_kconfiglib():
    folder = os.path.join(work, "tree")
    firsts, library_firsts = by_turns(lambda: first_of_session(folder), lambda: Library(folder).write())
    kept = report("the first config", firsts, library_firsts, 0.2)
    session, library = Session(folder, words), Library(folder)
    library.write()
    names = library.names()
    shows, configs = shows_of(names), queries_of(names, CONFIGS, "config")
    kept &= compare(
        f"{EDITS} edits, each with show",
        lambda: time_in_stream(folder, shows),
        lambda: time_in_session(session, shows),
        lambda: shows_of_library(library, names),
    )
    kept &= compare(
        "an edit with config",
        lambda: time_in_stream(folder, configs),
        lambda: time_in_session(session, configs),
        lambda: queries_of_library(library, names, CONFIGS, library.config),
    )
    kept &= compare_queries(folder, library, names)
    kept &= compare_bodies(folder, library, names)
    shown = session.ask([f"show {names[at % EDITS]}" for at in range(SHOWS)])
    session.end()
    print(f"{SHOWS} show commands: {shown / SHOWS * 1e6:.1f} microseconds each")
    return kept


def write_tree(folder, shape, count):
    """So many bools: side by side, each depending on the one before, or all on the first."""
    os.makedirs(folder, exist_ok=True)
    with open(os.path.join(folder, "Kconfig"), "w") as file:
        for number in range(count):
            file.write(f'config S{number}\n\tbool "symbol {number}"\n\tdefault y\n')
            if number and shape != "flat":
                file.write(f"\tdepends on S{number - 1 if shape == 'chain' else 0}\n")


def for_each_symbol(shape, count):
    """The median time for each symbol of `config` after an edit of the first symbol."""
    folder = os.path.join(work, f"{shape}{count}")
    write_tree(folder, shape, count)
    session = Session(folder)
    session.ask(["config"])
    times = [session.ask([f"set S0 {'ny'[turn % 2]}", "config"]) for turn in range(ROUNDS)]
    session.end()
    return statistics.median(times) / count


def by_size():
    kept = True
    for shape in ("flat", "chain", "fan"):
        small, great = for_each_symbol(shape, 1_000), for_each_symbol(shape, 60_000)
        kept = kept and great / small <= 1.5
        print(f"{shape}: {great * 1e6:.2f} microseconds a symbol against {small * 1e6:.2f}: {great / small:.2f} (wanted: at most 1.5)")
    return kept


sys.exit(not (against_kconfiglib() & by_size()))
