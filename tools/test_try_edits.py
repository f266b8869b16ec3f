#!/usr/bin/env python3
"""Tests of tools/try_edits_at_once.py: which edits are made at once, and what refuses one."""

import tempfile
import unittest
from pathlib import Path
from typing import List

from try_edits_at_once import (
    Edit, Place, changes_of, edits_of, functions_of, is_for_itself, place_of, refusals, round_of, verdicts_of,
)

CODE = """\
/// The most.
const MOST: usize = 64;

fn low(count: usize) -> bool {
    count < MOST
}

pub(crate) fn high(count: usize) -> bool {
    !low(count)
}

fn other() -> u8 {
    1
}
"""

EDITS = {
    "low_takes_the_most": "file: src/a.rt\nold: count < MOST\nnew: count <= MOST\n",
    "high_is_low": "-- function: `high`\nfile: src/a.rt\nold:     !low(count)\nnew:     low(count)\n",
    "other_is_two": "file: src/a.rt\nold:     1\nnew:     2\n",
    "one_more": "file: src/a.rt\nold: = 64;\nnew: = 65;\n",
}

SAID = """\
fn kc_a::a::low: no proof: expected answers in ./proofs/a/low/Answers.antt; `search` did not prove `returns`
fn kc_a::a::high: no proof: it calls `kc_a::a::low`, which is not proved
fn kc_a::a::other: proved
logic=not-proved
"""


class Edits(unittest.TestCase):
    def setUp(self) -> None:
        room = tempfile.TemporaryDirectory()
        self.addCleanup(room.cleanup)
        self.crate = Path(room.name) / "kc_a"
        (self.crate / "src").mkdir(parents=True)
        (self.crate / "src" / "a.rt").write_text(CODE, encoding="utf-8")
        for name, text in EDITS.items():
            (self.crate / f"{name}.edit").write_text(text, encoding="utf-8")
        self.functions = list(functions_of(self.crate))
        self.edits = list(edits_of(self.crate, self.crate, self.functions))

    def names(self, edits: List[Edit]) -> List[str]:
        return [edit.name for edit in edits]

    def test_a_change_keeps_its_blanks(self) -> None:
        self.assertEqual(next(changes_of(EDITS["high_is_low"])).new, "    low(count)")

    def test_an_edit_of_a_constant_is_one_of_what_names_it(self) -> None:
        self.assertEqual(place_of(CODE, next(changes_of(EDITS["one_more"]))), Place("src/a.rt", "MOST", "const"))
        places = {edit.name: {place.name for place in edit.places} for edit in self.edits}
        self.assertEqual(places["one_more"], {"MOST", "low"})
        self.assertEqual(places["high_is_low"], {"high"})

    def test_a_round_has_one_edit_of_a_function(self) -> None:
        chosen, texts = round_of(self.edits, self.crate)
        self.assertEqual(self.names(chosen), ["high_is_low", "low_takes_the_most", "other_is_two"])
        self.assertIn("count <= MOST", texts["src/a.rt"])

    def test_a_function_is_refused_for_itself(self) -> None:
        verdicts = verdicts_of(SAID, "kc_a")
        self.assertEqual([is_for_itself(verdicts[f"a::{name}"]) for name in ("low", "high", "other")], [True, False, False])

    def test_what_is_in_the_way_is_left_out_of_the_next_round(self) -> None:
        chosen, _ = round_of(self.edits, self.crate)
        self.assertEqual(refusals(chosen, SAID, "kc_a", self.functions), {"low_takes_the_most": "low of src/a.rt"})
        left = [edit for edit in self.edits if edit.name != "low_takes_the_most"]
        self.assertEqual(self.names(round_of(left, self.crate)[0]), ["high_is_low", "other_is_two"])

    def test_an_edit_alone_is_refused_by_any_report(self) -> None:
        alone = [edit for edit in self.edits if edit.name == "high_is_low"]
        self.assertEqual(refusals(alone, SAID, "kc_a", self.functions), {"high_is_low": "the crate, alone"})
        self.assertEqual(refusals(alone, "logic=proved", "kc_a", self.functions), {})


if __name__ == "__main__":
    unittest.main()
