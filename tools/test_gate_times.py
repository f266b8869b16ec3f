#!/usr/bin/env python3
"""Tests of tools/gate_times.py and tools/dearest_functions.py: what a process is, what a table has, and what a module is
about. They start no process."""

import tempfile
import unittest
from pathlib import Path
from typing import List, Optional, Tuple
from unittest import mock

import gate_times
from check_rules import crates_of
from dearest_functions import function_of, times_of
from gate_times import TICKS, Process, Report, Seen, Work, process_of, table, watch, work_of

CHECK = ["bin/rattle", "check", "--crate-name", "kc_text", "src/lib.rt"]
CRATE, EDIT, EDITS, RUN = "copy/crates/kc_text", "room/rt-edit-7-a_b", "room/rt-edits-7-c", "room/rt-run-7-a"

# The words of a process, its folder, and its work.
WORKS: List[Tuple[List[str], str, Optional[Work]]] = [
    (CHECK, CRATE, Work("kc_text", "proof")),
    ([*CHECK, "--test"], CRATE, Work("kc_text", "tests")),
    (CHECK, EDIT, Work("kc_text", "edits")),
    ([*CHECK, "--incremental", f"{EDITS}/12"], EDIT, Work("kc_text", "edits")),
    ([*CHECK, "--incremental", f"{EDITS}/seed"], EDIT, Work("kc_text", "first")),
    (["python3", "-c", "code", *CHECK], CRATE, Work("kc_text", "proof")),
    ([f"{RUN}/bin/kconf", "session"], f"{RUN}/data", Work("kconf", "run")),
    ([f"{RUN}/bin/kconf.by-rattle"], f"{RUN}/data", Work("kconf", "run")),
    (["runner", "--seconds", "60", f"{RUN}/bin/kc_parse_tests_tests"], ".", Work("kc_parse_tests", "run")),
    (["bin/rattle", "fmt", "src/lib.rt"], CRATE, None),
    (["rattle", "--crate-name"], CRATE, None),
    ([""], ".", None),
]


def seen_of(*looks: Tuple[float, List[Process]]) -> Seen:
    """What is seen below process 1, where process 2 is a proof of kc_text and 9 the try of an edit."""
    seen = Seen()
    seen.works = {(2, 0): Work("kc_text", "proof"), (9, 0): Work("kc_text", "edits")}
    for now, processes in looks:
        seen.look(1, processes, now)
    return seen


class GateTimes(unittest.TestCase):
    def test_works(self) -> None:
        for words, folder, wanted in WORKS:
            with self.subTest(words):
                self.assertEqual(work_of(words, folder), wanted)

    def test_a_process_is_read(self) -> None:
        fields = ["S", "7", *["0"] * 9, "1", "2", "3", "4", *["0"] * 4, "99", "0"]
        process = process_of(f"12 (a (b) c) {' '.join(fields)}\n")
        self.assertEqual(process, Process(number=12, parent=7, begin=99, seconds=10 / TICKS))

    def test_what_a_process_starts_is_its_own(self) -> None:
        first = [Process(2, 1, 0, 60.0), Process(3, 2, 0, 30.0), Process(4, 3, 0, 30.0), Process(5, 6, 0, 600.0)]
        seen = seen_of((0.0, first), (60.0, [Process(2, 1, 0, 180.0)]), (120.0, [Process(9, 1, 0, 6.0)]))
        self.assertEqual(seen.minutes("kc_text", "proof"), 3.0)
        self.assertAlmostEqual(seen.minutes("kc_text", "edits"), 0.1)
        self.assertEqual(seen.times, {"kc_text": (0.0, 120.0)})

    def test_a_process_takes_the_most_that_was_seen(self) -> None:
        with_one_below = [Process(2, 1, 0, 60.0), Process(3, 2, 0, 60.0)]
        seen = seen_of((0.0, with_one_below), (1.0, [Process(2, 1, 0, 61.0)]))
        self.assertEqual(seen.minutes("kc_text", "proof"), 2.0)

    def test_a_table_has_the_crates_that_were_seen(self) -> None:
        seen = seen_of((0.0, [Process(2, 1, 0, 90.0)]), (30.0, [Process(9, 1, 0, 60.0)]))
        head, line, row, total, _, counted = table(seen, ["kc_graph", "kc_text"], 1.5, "The system counted 2.8 minutes")
        self.assertEqual(head.count("|"), line.count("|"))
        self.assertRegex(row, r"^\| kc_text \| \d+ \| 1\.5 \| \| \| 1\.0 \| \| 0\.5 \| \d+ \|$")
        self.assertEqual(total, "| all | | 1.5 | | | 1.0 | | 1.5 | |")
        self.assertRegex(counted, r"^The system counted 2\.8 minutes, on \d+ processors\.$")

    def test_a_run_that_is_watched_has_a_table_before_it_ends(self) -> None:
        with tempfile.TemporaryDirectory() as folder:
            to = Path(folder, "table")
            answers = iter([True, False])
            with mock.patch.multiple(gate_times, SECONDS_BETWEEN_LOOKS=0.0, SECONDS_BETWEEN_TABLES=0.0):
                seen = watch(-1, lambda: next(answers), Report(to))
            self.assertEqual(seen, Seen())
            self.assertIn("Seen were 0.0 minutes of user and system time, on ", to.read_text(encoding="utf-8"))

    def test_crates_are_in_their_order(self) -> None:
        self.assertEqual(crates_of("# one: none\nb: a\na staticlib: c\n\nc:\n"), ["b", "a", "c"])


class Functions(unittest.TestCase):
    def test_the_modules_of_a_function_have_its_path(self) -> None:
        for part in ("Lts", "Code.Mir.decls", "Lts.View", "Carried-1-0-2", "Proof.decls"):
            self.assertEqual(function_of(f"Rattle-kc_a-proofs.help.Help.to_text.{part}.oantt"), "help.Help.to_text")
        for module in ("Rattle-kc_a.below.bumpalo.oantt", "Rattle-kc_a-proofs.ReadingLaws.decls.oantt"):
            self.assertIsNone(function_of(module))

    def test_a_module_takes_the_time_since_the_one_before(self) -> None:
        modules = [(3.0, "Rattle-kc_a-proofs.f.Proof.oantt"), (1.0, "Rattle-kc_a.oantt"), (2.5, "Rattle-kc_a-proofs.f.Lts.oantt")]
        self.assertEqual(dict(times_of(modules)), {"f": 2.0})


if __name__ == "__main__":
    unittest.main()
