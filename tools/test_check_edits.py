#!/usr/bin/env python3
"""Tests of tools/check_edits.py and tools/rattle_code.py: what is code, and which names an edit may use."""

import tempfile
import unittest
from pathlib import Path
from unittest import mock

import check_edits
from check_edits import mistakes_of
from rattle_code import bare, imported, items, variants

CODE = """\
ghost use Rattle.kc_low.specs.Sizes.{ghostly, codes};

use crate::room::push_one;
use kc_low::{Level, size_of as length, level};
use std::alloc::{AllocError, Global};

/// A mention of told(), which is no function.
const MOST: usize = 64;

pub struct Draft<'a> {
    text: &'a str,
    ghost short: { length text.now ≤ only_ghosts },
}

impl<'a> Draft<'a> {
    fn is_long(&self, most: usize) -> bool
        ensures long { clause_only self.text.now }
    {
        length(self.text) > most && self.text != "said(" && !self.text.contains('"')
    }
}

pub(crate) fn is_high(draft: &Draft, level: Level) -> Result<bool, AllocError> {
    Ok(level == Level::High || draft.is_long(MOST))
}
"""

ROOM = """\
pub(crate) fn push_one(count: usize) -> usize {
    count + 1
}
"""

LOW = """\
pub enum Level {
    Low,
    High,
}

impl Level {
    pub fn next(&self) -> Level {
        Level::High
    }
}

pub fn size_of(text: &str) -> usize {
    text.len()
}
"""

OLD = "Ok(level == Level::High || draft.is_long(MOST))"

# What an edit may put in place of OLD.
KNOWN = [
    "Ok(level == Level::Low)",
    "Ok(draft.text.len() > length(draft.text))",
    "let other = level.next(); Ok(other == Level::High)",
    "Ok(push_one(MOST) == crate::room::push_one(MOST))",
    "match level { found => Ok(found == kc_low::Level::High) }",
    "fn made(count: usize) -> bool { count > 1 } Ok(made(2))",
    "Ok(draft.text.bytes().all(|byte| byte == b'x' || byte == b'\\''))",
    "for part in draft.text.chars() { drop(part); } Err(AllocError)",
    'Ok(draft.text == "no_function(here) and No::Type")',
    "Ok(false) // nothing(here)",
]

# And what it may not, with what is said of it.
UNKNOWN = {
    "Ok(room(MOST))": "function 'room'",
    "Ok(is_long(draft, MOST))": "function 'is_long'",
    "Ok(told(MOST))": "function 'told'",
    "Ok(ghostly(MOST))": "function 'ghostly'",
    "Ok(draft.is_short(MOST))": "method 'is_short'",
    "Ok(draft.name == draft.text)": "field 'name'",
    "Ok(level == Level::Middle)": "name in Level 'Middle'",
    "Ok(level == Level::first())": "name in Level 'first'",
    "Ok(level == Height::High)": "type, module or constant 'Height'",
    "Ok(MOST > LEAST)": "type, module or constant 'LEAST'",
    "Ok(crate::room::push_two(MOST))": "name in room 'push_two'",
    "Ok(kc_low::depth_of(draft.text))": "name in kc_low 'depth_of'",
    "Ok(shown!(level))": "macro 'shown'",
    "Ok(level == higher)": "variable 'higher'",
    "Ok(clause_only == MOST)": "variable 'clause_only'",
}


def edit_of(new: str) -> str:
    return f"-- function: `is_high`\nfile: src/draft.rt\nold: {OLD}\nnew: {new}\n"


class Edits(unittest.TestCase):
    def setUp(self) -> None:
        folder = tempfile.TemporaryDirectory()
        self.addCleanup(folder.cleanup)
        root = Path(folder.name)
        files = {"kc_a/src/draft.rt": CODE, "kc_a/src/room.rt": ROOM, "kc_low/src/lib.rt": LOW}
        files["kc_a/src/lib.rt"] = "mod draft;\nmod room;\n"
        for name, text in files.items():
            path = root / "crates" / name
            path.parent.mkdir(parents=True, exist_ok=True)
            path.write_text(text, encoding="utf-8")
        (root / "crates.txt").write_text("kc_low:\nkc_a: kc_low bumpalo\n", encoding="utf-8")
        for name, place in (("ROOT", root), ("CRATES", root / "crates")):
            patch = mock.patch.object(check_edits, name, place)
            patch.start()
            self.addCleanup(patch.stop)

    def test_known_names(self) -> None:
        for new in KNOWN:
            with self.subTest(new):
                self.assertEqual(list(mistakes_of("kc_a", edit_of(new))), [])

    def test_unknown_names(self) -> None:
        for new, said in UNKNOWN.items():
            with self.subTest(new):
                self.assertEqual(list(mistakes_of("kc_a", edit_of(new))), [f"src/draft.rt knows no {said}"])

    def test_a_later_pair_makes_what_an_earlier_one_calls(self) -> None:
        more = "file: src/room.rt\nold: pub(crate) fn push_one\nnew: pub(crate) fn push_two() {} fn push_one\n"
        imports = "file: src/draft.rt\nold: use crate::room::push_one;\nnew: use crate::room::{push_one, push_two};\n"
        self.assertEqual(list(mistakes_of("kc_a", edit_of("push_two(); Ok(true)") + imports + more)), [])

    def test_what_an_edit_takes_away_is_not_known(self) -> None:
        gone = "old: use crate::room::push_one;\nnew: use crate::room;\n"
        said = list(mistakes_of("kc_a", edit_of("Ok(push_one(MOST) > MOST)") + gone))
        self.assertEqual(said, ["src/draft.rt knows no function 'push_one'"])


class Code(unittest.TestCase):
    def test_bare_code_keeps_places(self) -> None:
        code = bare(CODE)
        self.assertEqual([len(line) for line in code.split("\n")], [len(line) for line in CODE.split("\n")])
        for word in ("ghostly", "told", "clause_only", "said", "only_ghosts"):
            self.assertNotIn(word, code)
        for word in ("&'a str", "is_long", "MOST", "High"):
            self.assertIn(word, code)

    def test_names_are_imported_by_their_last_part(self) -> None:
        self.assertEqual(imported("use a::b::{C, D as E, f::{self, G}};\nuse h::*;\n"), {"C", "E", "f", "G"})

    def test_items_and_variants(self) -> None:
        self.assertEqual(items(bare(LOW)), {"Level", "next", "size_of"})
        self.assertEqual(variants(bare(LOW), "Level"), {"Low", "High"})


if __name__ == "__main__":
    unittest.main()
