#!/usr/bin/env python3
"""Tests of tools/fuzz.py: that it sees each kind of failure, in programs that only fail."""

import io
import subprocess
import sys
import tempfile
import unittest
from contextlib import redirect_stdout
from dataclasses import replace
from pathlib import Path
from typing import List, Optional, Tuple
from unittest import mock

from fuzz import main
from fuzz_checks import commands_of, problem_of
from fuzz_compared import make_text, problem_beside_others
from fuzz_inputs import Input, all_inputs, input_of_case
from fuzz_plans import TARGETS, Plan, plan_of
from fuzz_reports import Run

TOOL = Path(__file__).resolve().parent / "fuzz.py"
POOLS = all_inputs([])

NOTHING_ASKED = "0 asked: 0 got, 0 got another value, 0 unusable, 0 replaced; 0 lines of config lost"

# A script, its target, and what the fuzzer says of it; none where it finds nothing wrong.
PROGRAMS: List[Tuple[str, str, Optional[str]]] = [
    ("exit 0", "allnoconfig", None),
    ("echo 'kconf: Kconfig:1: K04' >&2; exit 1", "allnoconfig", None),
    ("kill -SEGV $$", "allnoconfig", "signal 11"),
    ("kill -ABRT $$", "session", "signal 6"),
    ("exec sleep 60", "allnoconfig", "it did not end"),
    ("exit 3", "allnoconfig", "status 3"),
    ("exit 2", "allnoconfig", "status 2 where the words are a command line"),
    ("exit 1", "allnoconfig", "status 1 without a fault"),
    ("echo 'kconf: Kconfig:1: K04' >&2", "allnoconfig", "status 0 with a fault"),
    ("echo 'panicked at main' >&2; exit 1", "allnoconfig", "a line of standard error that has no known form"),
    ("echo 'kconf: Kconfig:1: K21' >&2; exit 1", "allnoconfig", "a line of standard error that has no known form"),
    ("echo 'kconf: K19' >&2; exit 1", "allnoconfig", "a line of standard error that has no known form"),
    ("printf 'kconf: memory' >&2; exit 1", "allnoconfig", "a line of standard error without its end"),
    ("echo 'kconf: memory' >&2; exit 1", "allnoconfig", "kconf: memory, without a reason"),
    ("echo 'kconf: Kconfig:999999: K04' >&2; exit 1", "allnoconfig", "a fault at a line that is not there"),
    ("echo A; echo 'kconf: Kconfig:1: K04' >&2; exit 1", "allnoconfig", "output beside a fault"),
    ("echo what", "allnoconfig", "a line of standard output that has no known form"),
    ("echo ok; echo ok; head -c 100000 /dev/zero | tr '\\0' '\\n' | sed s/^/ok/", "session", "replies to"),
    ("printf ok", "session", "a reply that does not end"),
    ("kill -SEGV $$", "why", "signal 11"),
    ("exit 1", "merge", "status 1 without a fault"),
    ("echo '{\"id\":1'", "menu", "a line that is no JSON object"),
    ("echo what", "check", "a last line of the findings that has no known form"),
    ("[ $1 != check ] || { echo 'kconf: Kconfig:1: K04: no word' >&2; exit 1; }", "check", "the first error is"),
    ("[ $1 != files ] || { echo 'kconf: Kconfig:1: K04: no word' >&2; exit 1; }", "files", "and that of olddefconfig"),
    ("[ $1 != olddefconfig ] || echo CONFIG_A=y", "genmake", "other values than in the .config"),
    (f"[ $1 = session ] || echo '{NOTHING_ASKED}' >&2", "merge", "a session with the same loads"),
]

# A stream, and the refusal of each of its commands where it is 1, 5 or 6, else 0.
STREAMS: List[Tuple[bytes, List[int]]] = [
    (b"", []),
    (b"list\n", [0]),
    (b"list\r\nlist", [0, 0]),
    (b"list\r", [1]),  # a last line without a line feed keeps its carriage return
    (b"\n\n", [1, 1]),
    (b"load 2\nlist\nlist\nlist\n", [0, 0]),
    (b"load 2\nlist\n", [5]),
    (b"load x\nlist\n", [5, 0]),
    (b"load 00000001\nlist\n", [5, 0]),
    (b"load 1 \nlist\n", [1, 0]),
    (b"merge 1\n" + b"a" * 65_537 + b"\nlist\n", [6, 0]),
    (b"set A " + b"a" * 65_530 + b"\n", [0]),
    (b"set A " + b"a" * 65_531 + b"\n", [6]),
    (b"set A\nset A \nshow \xff\nshow A B\n", [1, 0, 1, 1]),
]

# A run of a session or of a target by itself, and whether something is wrong with it.
RUNS: List[Tuple[Run, bool]] = [
    (Run("session", stream=b"list\nfrob\n", output=b"ok\nrefused 1\n"), False),
    (Run("session", stream=b"list\nfrob\n", output=b"ok\nok\n"), True),
    (Run("session", stream=b"list\n", output=b"refused 7\n"), True),
    (Run("session", stream=b"list\n", output=b"refused 1\n"), True),
    (Run("session", stream=b"list\n", output=b"A what\nok\n"), True),
    (Run("session", stream=b"list\n", output=b"A type=bool value=n vis=n can=- user=-\nok\n"), False),
    (Run("session", stream=b"set A y\n", output=b"A=y\nrefused 2\n"), True),
    (Run("genheader", output=b"#define CONFIG_A 1\n"), False),
    (Run("genheader", output=b"CONFIG_A=y\n"), True),
    (Run("olddefconfig", config=b"a\nb\n", errors=b"kconf: c:1: warning 4\nkconf: c:2: warning 4\n"), False),
    (Run("olddefconfig", config=b"a\nb\n", errors=b"kconf: c:2: warning 4\nkconf: c:1: warning 4\n"), True),
    (Run("olddefconfig", config=b"a\n", errors=b"kconf: c:3: warning 4\n"), True),
    (Run("olddefconfig", status=1, is_explained=True, errors=b"kconf: K12 A: a symbol without a type\n"), False),
    (Run("olddefconfig", status=1, is_explained=True, errors=b"kconf: K12 A\n"), True),
    (Run("olddefconfig", status=1, errors=b"kconf: K12 A: a symbol without a type\n"), True),
    (Run("olddefconfig", words=(b"A",), status=2, errors=b"error: no\n"), False),
    (Run("olddefconfig", words=(b"A",)), True),
    (Run("genmake", output=b"CONFIG_A=y\nCONFIG_S=a b\n"), False),
    (Run("genmake", output=b"# CONFIG_A is not set\n"), True),
    (Run("genmake", output=b"CONFIG_A=y\nCONFIG_A=m\n"), True),
    (Run("files", output=b"Kconfig\na/b\n", texts={b"Kconfig": b"", b"a/b": b""}), False),
    (Run("files", output=b"Kconfig\na/c\n", texts={b"Kconfig": b"", b"a/b": b""}), True),
    (Run("files", output=b"a/b\nKconfig\n"), True),
    (Run("files", output=b"Kconfig\nKconfig\n"), True),
    (Run("files", errors=b"kconf: config:1: warning 4: no line\n", output=b"Kconfig\n", config=b"x\n"), True),
]

KCONFIG = {b"Kconfig": b"config A\n\tbool\n"}
WHY = b"A = y (bool, visible n, user -)\n  by default\n  Kconfig:1: config A\n"

# A run of `why` of the names A and CONFIG_B, and whether something is wrong with it.
WHYS: List[Tuple[int, bytes, bytes, bool]] = [
    (0, WHY + b"\n" + WHY.replace(b"A", b"B"), b"", False),
    (0, WHY + b"\n" + WHY, b"", True),
    (0, WHY, b"", True),
    (0, WHY + b"\n" + WHY.replace(b"A", b"B").replace(b"by default", b"by chance"), b"", True),
    (0, WHY + b"\n" + WHY.replace(b"A", b"B").replace(b"visible n", b"visible x"), b"", True),
    (0, WHY + b"\n" + WHY.replace(b"A", b"B").replace(b"  Kconfig", b"Kconfig"), b"", True),
    (1, b"", b"kconf: A: no such symbol\nkconf: CONFIG_B: no such symbol; did you mean BB?\n", False),
    (1, b"", b"kconf: config:1: warning 4: no line\nkconf: CONFIG_B: no such symbol\n", False),
    (1, b"", b"kconf: CONFIG_B: no such symbol\nkconf: A: no such symbol\n", True),
    (1, b"", b"kconf: C: no such symbol\n", True),
    (0, b"", b"kconf: A: no such symbol\n", True),
    (1, WHY, b"kconf: CONFIG_B: no such symbol\n", True),
    (1, b"", b"kconf: Kconfig:1: K04: no word\n", False),
    (1, b"", b"kconf: Kconfig:1: K04\n", True),
]

UNDEFINED = b"Kconfig:2: A: undefined: NETWROK (always n); did you mean NETWORK?\n"

# A run of `check` with a CONFIG of two lines, its options, and whether something is wrong with it.
IN_TREE = b"no findings in config, 1 in the tree\n"
NO_EFFECT = b"config:2: A: y has no effect: needs B, which is n\n"
CHECKS: List[Tuple[int, bytes, bytes, Tuple[bytes, ...], bool]] = [
    (0, b"no findings\n", b"", (), False),
    (0, b"no findings, 2 undefined names (--undefined lists them)\n", b"", (), False),
    (0, UNDEFINED + IN_TREE, b"", (), False),
    (0, UNDEFINED + IN_TREE, b"", (b"--strict",), False),
    (1, UNDEFINED + IN_TREE, b"", (b"--strict", b"--tree"), False),
    (1, UNDEFINED + IN_TREE, b"", (b"--strict",), True),
    (1, b"no findings\n", b"", (b"--strict",), True),
    (1, UNDEFINED + IN_TREE, b"", (), True),
    (0, UNDEFINED + b"1 finding\n", b"", (), False),
    (0, UNDEFINED + b"2 findings\n", b"", (), True),
    (0, UNDEFINED + b"no findings in config, 2 in the tree\n", b"", (), True),
    (0, UNDEFINED + UNDEFINED + b"no findings in config, 2 in the tree\n", b"", (), True),
    (0, UNDEFINED.replace(b"always n", b"a word") + IN_TREE, b"", (), True),
    (0, UNDEFINED.replace(b":2:", b":9:") + IN_TREE, b"", (), True),
    (0, UNDEFINED.replace(b"Kconfig", b"Kconf") + IN_TREE, b"", (), True),
    (0, NO_EFFECT + b"1 finding in config, none in the tree\n", b"", (), False),
    (1, NO_EFFECT + b"1 finding in config, none in the tree\n", b"", (b"--strict",), False),
    (0, NO_EFFECT + b"1 finding in config, none in the tree\n", b"", (b"--strict",), True),
    (0, NO_EFFECT.replace(b"has no effect", b"gives m") + b"1 finding in config, none in the tree\n", b"", (), False),
    (0, NO_EFFECT + b"X: given, and used nowhere\n1 finding in config, 1 in the tree\n", b"", (), False),
    (0, b"X: given, and used nowhere\n" + NO_EFFECT + b"1 finding in config, 1 in the tree\n", b"", (), True),
    (0, NO_EFFECT + UNDEFINED + b"1 finding in config, 1 in the tree\n", b"", (), False),
    (0, UNDEFINED + NO_EFFECT + b"1 finding in config, 1 in the tree\n", b"", (), True),
    (0, UNDEFINED, b"", (), True),
    (1, b"", b"kconf: Kconfig:1: K04: no word\nkconf: Kconfig:2: K06: no owner\n", (), False),
    (1, b"", b"kconf: K14 A: two\nkconf: Kconfig:2: K17: no member\n", (), False),
    (1, b"", b"kconf: K19: a loop\nkconf: on A\n", (b"--strict",), False),
    (1, b"", b"kconf: K14 A: two\nkconf: K19: a loop\nkconf: on A\n", (), True),
    (1, b"", b"kconf: Kconfig:1: K04: no word\nkconf: Kconfig:9: K06: no owner\n", (), True),
    (0, b"no findings\n", b"kconf: config:1: warning 4: no line\n", (), True),
    (0, b"no findings\n", b"kconf: Kconfig:1: K04: no word\n", (b"--strict",), True),
]

ASKED = b"%d asked: %d got, %d got another value, %d unusable, %d replaced; %d lines of config lost\n"
OTHER = b"fragment1:1: A: asked y, got n: needs B, which is n\n"

# The report of `merge` on a CONFIG and a fragment of two lines, its status and options, and whether something is wrong.
MERGES: List[Tuple[int, bytes, Tuple[bytes, ...], bool]] = [
    (0, ASKED % (2, 2, 0, 0, 0, 0), (), False),
    (0, ASKED % (2, 1, 0, 0, 0, 0), (), True),
    (0, ASKED % (2, 1, 1, 0, 0, 0), (), True),
    (0, OTHER + ASKED % (2, 1, 1, 0, 0, 0), (), False),
    (0, OTHER + ASKED % (2, 1, 1, 0, 0, 0), (b"--strict",), True),
    (1, OTHER + ASKED % (2, 1, 1, 0, 0, 0), (b"--strict",), False),
    (1, OTHER + ASKED % (2, 1, 1, 0, 0, 0), (), True),
    (0, OTHER.replace(b":1:", b":4:") + ASKED % (2, 1, 1, 0, 0, 0), (), True),
    (0, OTHER.replace(b"fragment1", b"fragment2") + ASKED % (2, 1, 1, 0, 0, 0), (), True),
    (0, OTHER.replace(b"asked", b"wanted") + ASKED % (2, 1, 1, 0, 0, 0), (), True),
    (0, b"fragment1:1: not a line of a .config\n" + ASKED % (2, 1, 0, 1, 0, 0), (), False),
    (0, b"fragment1:2: A: y takes the place of n (fragment1:1)\n" + ASKED % (2, 1, 0, 0, 1, 0), (), False),
    (0, b"fragment1:2: A: y takes the place of n (fragment1:1)\n" + ASKED % (2, 2, 0, 0, 0, 0), (), True),
    (0, b"config:2: A: was y, is n: needs B, which is n\n" + ASKED % (2, 2, 0, 0, 0, 1), (), False),
    (0, b"config:2: A: was y, is n: needs B, which is n\n" + OTHER + ASKED % (2, 1, 1, 0, 0, 1), (), True),
    (1, b"kconf: Kconfig:1: K04: no word\n", (), False),
    (1, b"kconf: Kconfig:1: K04\n", (), True),
    (0, b"kconf: Kconfig: defines no symbol: is it a .config?\n" + ASKED % (2, 2, 0, 0, 0, 0), (), False),
    (0, b"kconf: config:1: warning 4: no line\n", (), True),
    (0, b"", (), True),
]

FRAGMENT = b"CONFIG_B=y\nCONFIG_A=y\n"
CHANGES = b"B: n to y, needed for A=y\nA: n to y, wanted\n"
GIVEN = b"1 wanted: %d lines; %d lines of config lost\n"
COST = b"config:2: C: was y, is n: needs D, which is n\n"
NEVER = b"A: wanted y, is n: needs B, which is n\nimpossible: no user values give A=y: B is not defined\n"
MISSED = b"A: wanted y, is n: needs B, which is n\nnothing was found that gives what is wanted\n"

# What `how` writes for a CONFIG and a fragment of two lines: its status, standard output and standard error, its
# options, and whether something is wrong.
HOWS: List[Tuple[int, bytes, bytes, Tuple[bytes, ...], bool]] = [
    (0, FRAGMENT, CHANGES + GIVEN % (2, 0), (), False),
    (0, FRAGMENT, CHANGES + GIVEN % (3, 0), (), True),
    (0, FRAGMENT, CHANGES[26:] + GIVEN % (2, 0), (), True),
    (0, FRAGMENT, CHANGES.replace(b"needed", b"good") + GIVEN % (2, 0), (), True),
    (0, FRAGMENT, CHANGES + b"  Kconfig:1: config A\n" + GIVEN % (2, 0), (), True),
    (0, b"A=y\n# B is n\n", CHANGES + GIVEN % (2, 0), (), True),
    (0, b"", b"1 wanted: 0 lines\n", (), False),
    (0, FRAGMENT, COST + CHANGES + GIVEN % (2, 1), (), False),
    (0, FRAGMENT, COST.replace(b":2:", b":7:") + CHANGES + GIVEN % (2, 1), (), True),
    (0, FRAGMENT, CHANGES + COST + GIVEN % (2, 1), (), True),
    (1, FRAGMENT, COST + CHANGES + GIVEN % (2, 1), (), True),
    (1, FRAGMENT, COST + CHANGES + GIVEN % (2, 1), (b"--strict",), False),
    (0, FRAGMENT, CHANGES + b"1 wanted, 1 kept: 2 lines\n", (), True),
    (0, FRAGMENT, CHANGES + b"1 wanted, 1 kept: 2 lines\n", (b"--keep",), False),
    (1, b"", MISSED, (), False),
    (1, b"", NEVER, (), False),
    (1, b"", NEVER.replace(b"A=y", b"A"), (), True),
    (0, b"", MISSED, (), True),
    (1, FRAGMENT, MISSED, (), True),
    (1, b"", MISSED.replace(b"wanted y", b"asked y"), (), True),
    (1, b"", b"fragment1:1: B: no symbol has this name\n", (), False),
    (0, b"", b"kconf: Kconfig: defines no symbol: is it a .config?\n0 wanted: 0 lines\n", (), False),
    (1, b"", b"kconf: Kconfig:1: K04: no word\n", (), False),
    (0, b"", b"", (), True),
]

MENU = b'{"id":2,"parent":0,"kind":"menu","prompt":"m","at":"Kconfig:1","shown":"y"}\n'
SYMBOL = (
    b'{"id":3,"parent":2,"kind":"config","name":"A","type":"bool","at":"Kconfig:2","shown":"n","vis":"n","value":"n",'
    b'"can":[],"user":null}\n'
)

# What `menu` writes, and whether something is wrong with it.
MENUS: List[Tuple[bytes, bool]] = [
    (b"", False),
    (MENU + SYMBOL, False),
    (SYMBOL, True),
    (SYMBOL.replace(b'"parent":2', b'"parent":0') + MENU, True),
    (MENU + SYMBOL.replace(b'"id":3', b'"id":2'), True),
    (MENU.replace(b'"prompt":"m",', b""), True),
    (MENU.replace(b'"prompt":"m"', b'"prompt":"m","title":"m"'), True),
    (MENU.replace(b'"prompt":"m"', b'"prompt":"m","prompt":"m"'), True),
    (MENU.replace(b'"prompt":"m"', b'"prompt":"\xff"'), True),
    (MENU.replace(b'"prompt":"m"', b'"prompt":"\t"'), True),
    (MENU.replace(b"menu", b"folder"), True),
    (MENU.replace(b'"shown":"y"', b'"shown":"x"'), True),
    (MENU + SYMBOL.replace(b'"can":[],', b""), True),
    (MENU + SYMBOL.replace(b'"bool"', b'"int"'), True),
    (MENU[:-1], True),
]

# A value, and how it is written for make.
MAKE_TEXTS: List[Tuple[bytes, bytes]] = [
    (b"", b""),
    (b"a b", b"a b"),
    (b" a$#", b"$() a$$\\#"),
    (b"##", b"\\#\\#"),
    (b"\\#\r#", b"\\$()\\#\r$()\\#"),
    (b"a\\", b"a\\$()"),
    (b"\r", b"$()\r$()"),
]

LIST = b'A type=bool value=n vis=n can=- user=-\nS type=string value="a\\"" vis=y can=- user=-\nok\n'
TEXT = SYMBOL.replace(b'"A"', b'"S"').replace(b"bool", b"string").replace(b'"can":[],', b"")

# A target, what it wrote, what it wrote to standard error, what the other target or session wrote, and whether the two
# are at odds.
COMPARED: List[Tuple[str, bytes, bytes, bytes, bytes, bool]] = [
    ("check", b"no findings\n", b"", b"# CONFIG_A is not set\n", b"", False),
    ("check", b"no findings\n", b"", b"", b"kconf: K14 A\n", True),
    ("check", b"", b"kconf: K14 A: two\nkconf: K14 B: two\n", b"", b"kconf: K14 A\n", False),
    ("check", b"", b"kconf: K14 B: two\nkconf: K14 A: two\n", b"", b"kconf: K14 A\n", True),
    ("files", b"", b"kconf: K14 A: two\n", b"", b"", True),
    ("genmake", b"CONFIG_A=y\nCONFIG_S=a\"\n", b"", b'# a\nCONFIG_A=y\nCONFIG_S="a\\""\n', b"", False),
    ("genmake", b"CONFIG_A=y\n", b"", b"CONFIG_A=m\n", b"", True),
    ("merge", b"CONFIG_A=y\n", ASKED % (0, 0, 0, 0, 0, 0), b"warning 1 4\nok\nok\nCONFIG_A=y\nok\n", b"", False),
    ("merge", b"CONFIG_A=y\n", ASKED % (0, 0, 0, 0, 0, 0), b"ok\nok\n# CONFIG_A is not set\nok\n", b"", True),
    ("merge", b"CONFIG_A=y\n", ASKED % (0, 0, 0, 0, 0, 0), b"ok\nrefused 6\nCONFIG_A=y\nok\n", b"", True),
    ("how", FRAGMENT, GIVEN % (2, 0), b"ok\nok\nCONFIG_A=y\nok\nok\nCONFIG_A=y\nok\n", b"", False),
    ("how", FRAGMENT, GIVEN % (2, 0), b"ok\nok\nCONFIG_A=y\nok\nok\nCONFIG_A=m\nok\n", b"", True),
    ("why", b"A = n (bool, visible n, user -)\n  by default\n", b"", LIST, b"", False),
    ("why", b"A = y (bool, visible n, user -)\n  by default\n", b"", LIST, b"", True),
    ("menu", SYMBOL + TEXT.replace(b'"vis":"n","value":"n"', b'"vis":"y","value":"a\\""'), b"", LIST, b"", False),
    ("menu", SYMBOL + TEXT, b"", LIST, b"", True),
    ("menu", SYMBOL, b"", LIST, b"", True),
]


def plain_run(target: str) -> int:
    """The number of a run of seed 1 whose words are a command line, without words that explain."""
    for number in range(1_000):
        plan = plan_of(1, number, POOLS, [target])
        is_plain = plan.prefix is None and not plan.given.words and not plan.is_explained and not plan.options
        has_operands = target not in ("why", "merge", "how") or plan.operands()
        if is_plain and has_operands and plan.given.stream.count(b"\n") > 3:
            return number
    raise AssertionError("no such run")


class Fuzzer(unittest.TestCase):
    def setUp(self) -> None:
        folder = tempfile.TemporaryDirectory()
        self.addCleanup(folder.cleanup)
        self.folder = Path(folder.name)

    def fuzz(self, script: str, *words: str) -> Tuple[int, str]:
        """The status and standard output of the fuzzer over a script."""
        program = self.folder / "program"
        program.write_text(f"#!/bin/sh\n{script}\n")
        program.chmod(0o755)
        said = io.StringIO()
        with redirect_stdout(said), mock.patch("fuzz.all_inputs", lambda _trees: POOLS):
            status = main(["--program", str(program), "--keep", str(self.folder / "kept"), *words])
        return status, said.getvalue()

    def test_programs_that_fail(self) -> None:
        numbers = {target: str(plain_run(target)) for target in {row[1] for row in PROGRAMS}}
        for script, target, problem in PROGRAMS:
            with self.subTest(script):
                limit = "1" if problem == "it did not end" else "60"
                run = ("--from", numbers[target], "--runs", "1", "--target", target, "--limit", limit)
                status, said = self.fuzz(f"export PATH=/usr/bin:/bin\n{script}", *run)
                self.assertEqual(status, 0 if problem is None else 1, said)
                self.assertIn(problem or "1 runs", said)

    def test_what_is_kept_of_a_run(self) -> None:
        _, said = self.fuzz("exit 3", "--seed", "7", "--from", "5", "--runs", "9")
        kept = self.folder / "kept" / "7-5"
        self.assertIn(f"kept in {kept}", said)
        self.assertIn(" 1 runs", said)  # it stops there
        self.assertEqual((kept / "problem").read_text(), "status 3\n")
        self.assertTrue((kept / "command").read_text().startswith("cd tree && kconf "))
        self.assertTrue((kept / "tree" / "Kconfig").is_file())
        _, said = self.fuzz("exit 3", "--seed", "7", "--from", "5", "--runs", "9", "--go-on")
        self.assertIn(" 9 runs", said)

    def test_a_run_is_the_same_each_time(self) -> None:
        again = all_inputs([])
        for number in range(50):
            plan = plan_of(3, number, POOLS, list(TARGETS))
            self.assertEqual(plan, plan_of(3, number, again, list(TARGETS)))

    def test_the_command_line(self) -> None:
        command = [sys.executable, TOOL, "--program", "true", "--runs", "0"]
        done = subprocess.run(command, capture_output=True, text=True)
        self.assertEqual((done.returncode, done.stderr, done.stdout[:14]), (0, "", "seed 1: 0 runs"))

    def test_commands_of_streams(self) -> None:
        for stream, refusals in STREAMS:
            with self.subTest(stream[:40]):
                self.assertEqual([refusal for _, refusal in commands_of(stream)], refusals)

    def test_runs(self) -> None:
        for run, is_wrong in RUNS:
            with self.subTest(run):
                self.assertEqual(problem_of(run) is not None, is_wrong, problem_of(run))

    def is_wrong(self, run: Run) -> bool:
        return problem_of(replace(run, texts=KCONFIG, config=b"x\ny\n")) is not None

    def test_runs_of_why(self) -> None:
        for status, output, errors, is_wrong in WHYS:
            with self.subTest((output, errors)):
                run = Run("why", status=status, output=output, errors=errors, operands=(b"A", b"CONFIG_B"))
                self.assertEqual(self.is_wrong(run), is_wrong)
        self.assertFalse(self.is_wrong(Run("why", status=2, errors=b"error: no\n")))
        self.assertTrue(self.is_wrong(Run("why", output=WHY)))

    def test_runs_of_check(self) -> None:
        for status, output, errors, options, is_wrong in CHECKS:
            with self.subTest((output, errors)):
                run = Run("check", status=status, output=output, errors=errors, options=options)
                self.assertEqual(self.is_wrong(run), is_wrong)

    def test_explained_errors_of_check(self) -> None:
        explained, plain = b"kconf: K14 A: two prompts\n  Kconfig:1: bool\n", b"kconf: K14 A\n"
        for count, rest, is_wrong in ((3, 0, False), (17, 0, False), (3, 1, True), (16, 2, True)):
            with self.subTest((count, rest)):
                errors = explained * count + plain * rest
                self.assertEqual(self.is_wrong(Run("check", status=1, is_explained=True, errors=errors)), is_wrong)

    def test_runs_of_merge(self) -> None:
        given = Run("merge", operands=(b"fragment1",), fragments={b"fragment1": b"a\nb\n"})
        for status, errors, options, is_wrong in MERGES:
            with self.subTest(errors):
                run = replace(given, status=status, errors=errors, options=options)
                self.assertEqual(self.is_wrong(run), is_wrong)

    def test_runs_of_how(self) -> None:
        given = Run("how", operands=(b"fragment1",), fragments={b"fragment1": b"a\nb\n"})
        for status, output, errors, options, is_wrong in HOWS:
            with self.subTest((output, errors, options)):
                run = replace(given, status=status, output=output, errors=errors, options=options)
                self.assertEqual(self.is_wrong(run), is_wrong)

    def test_runs_of_menu(self) -> None:
        for output, is_wrong in MENUS:
            with self.subTest(output):
                self.assertEqual(self.is_wrong(Run("menu", output=output)), is_wrong)

    def test_values_for_make(self) -> None:
        for value, written in MAKE_TEXTS:
            self.assertEqual(make_text(value), written)

    def test_compared_runs(self) -> None:
        given = Plan("", Input(b"", config=b"x\ny\n"), has_config=True, compares=True, fragments=(b"x",))
        for target, output, errors, other, other_errors, is_wrong in COMPARED:
            with self.subTest((target, output, other)):
                status = 1 if errors.startswith(b"kconf: K") else 0
                run = Run(target, status=status, output=output, errors=errors, operands=(b"A",))
                beside = Run("", output=other, errors=other_errors)
                found = problem_beside_others(lambda _plan: (beside, None), replace(given, target=target), run)
                self.assertEqual(found is not None, is_wrong, found)

    def test_cases_are_read(self) -> None:
        case = b"\n--- Kconfig escaped\na\\tb\\r\n--- file d/f 2 times\n{n} {n+1}\n"
        case += b"--- variables\nA=b\n--- commands\nlist\n"
        made = input_of_case(case)
        self.assertEqual((made.kconfig, made.files), (b"a\tb\r\n", (("d/f", b"0 1\n1 2\n"),)))
        self.assertEqual((made.words, made.stream), ((b"A=b",), b"list\n"))


if __name__ == "__main__":
    unittest.main()
