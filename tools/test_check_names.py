#!/usr/bin/env python3
"""Tests of tools/check_names.py: which names of a document are found to be gone, and which are left alone."""

import tempfile
import unittest
from pathlib import Path
from typing import List

from check_names import library_mistakes, lines_of, members, mistakes_of, without_comments
from rattle_code import bare

CODE = """\
pub enum Shape {
    Round,
    Long(u32),
}

impl Shape {
    /// Calls widest(), which is gone.
    pub fn width(&self) -> u32
        ensures width { wide_of self.now }
    {
        0
    }
}

pub trait Measured {
    fn height(&self) -> u32;
}

impl<'a> Measured for Sheet<'a> {}

pub struct Sheet<'a>(&'a str);
"""

THERE = frozenset(
    "Shape Sheet width height Round Square MOST_LINES eval tokens token_rows kc_value CellLaws check_names".split()
)

RIGHT = [
    "The value is that of `eval`, by `Shape::width` and `Sheet::height`.",
    "`Shape::Round` has a limit, `MOST_LINES`.",
    "`set CHANNEL 99` and `A && B` are examples, and so is `NET`.",
    "`widest` of kc_text, which is gone, took longest.",
    "kc_value/symbol_value and `tools/check_names.py` are there, and kc_tree `specs/Cells`, `specs/CellLaws`.",
    "`crates/kc_value/src/` is a folder, and `crates/CRATE/must-fail/NAME.edit` a pattern.",
    "    `widest` in a block of code",
]

WRONG = {
    "The value is that of `widest`.": "no widest is there (`widest`)",
    "Beside it is `Drops`.": "no Drops is there (`Drops`)",
    "The limit is `MOST_WORDS`.": "no MOST_WORDS is there (`MOST_WORDS`)",
    "`set x` calls `text of too_wide`.": "no too_wide is there (`text of too_wide`)",
    "It is `Shape::height`.": "Shape has no height",
    "It is `Sheet::width`.": "Sheet has no width",
    "It is `Shape::Square`.": "Shape has no Square",
    "It is in kc_value/symbol_values.": "kc_value has no file src/symbol_values",
    "kc_tree `specs/Cells`, `specs/Gone`": "kc_tree has no file specs/Gone",
    "Run `tools/names.py --write`.": "no file tools/names.py",
}

TABLE = """\
| What | CRATE/FILE | Function |
|---|---|---|
| a line becomes words | kc_text/lexer | `tokens` |
| a line becomes rows | kc_text/lexer | `token_rows` |

| What | Name |
|---|---|
| a row | `token_rows` |
"""


# Files with what is left of them without comments.
FILES = [
    ("a.rt", "/// one\nfn two() {} // three\n", ["fn", "two()", "{}"]),
    ("a.antt", "-- one\ntwo : ℕ -- three\n", ["two", ":", "ℕ"]),
    ("a.py", '"""One\ntwo."""\nthree = 4  # five\n', ["three", "=", "4"]),
    ("a.edit", "file: src/a.rt\nold: one\nnew: two\n", []),
    ("a.cases", "=== one // two\n", ["===", "one", "//", "two"]),
]


class Names(unittest.TestCase):
    def setUp(self) -> None:
        self.members = members(bare(CODE))

    def said(self, text: str) -> List[str]:
        return list(mistakes_of(text, THERE, self.members))

    def test_what_is_there_is_left_alone(self) -> None:
        for text in RIGHT:
            with self.subTest(text):
                self.assertEqual(self.said(text), [])

    def test_what_is_gone_is_found(self) -> None:
        for text, mistake in WRONG.items():
            with self.subTest(text):
                self.assertEqual(self.said(f"# A page\n\n{text}\n"), [f"3: {mistake}"])

    def test_a_column_of_functions_has_functions_of_the_crates_of_its_row(self) -> None:
        self.assertEqual(self.said(TABLE), ["4: no crate of the row has a function token_rows"])

    def test_a_block_of_code_is_left_out(self) -> None:
        lines = lines_of("one\n```\ntwo\n```\n    three\nfour")
        self.assertEqual([(line.number, line.text) for line in lines], [(1, "one"), (6, "four")])

    def test_libraries_are_those_of_the_crates(self) -> None:
        proofs = "**Uses** std and the crates bumpalo, clap and\nmemchr of the toolchain. More.\n"
        crates = "# c: d\nkc_a: bumpalo memchr\nkc_b: kc_a serde  # no more\n"
        wanted = ["docs/PROOFS.md: serde is used, and not named", "docs/PROOFS.md: clap is named, and not used"]
        self.assertEqual(list(library_mistakes(proofs, crates)), wanted)

    def test_comments_and_edits_make_no_name_known(self) -> None:
        with tempfile.TemporaryDirectory() as folder:
            for name, text, left in FILES:
                path = Path(folder, name)
                path.write_text(text, encoding="utf-8")
                with self.subTest(name):
                    self.assertEqual(without_comments(path).split(), left)


if __name__ == "__main__":
    unittest.main()
