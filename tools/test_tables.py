#!/usr/bin/env python3
"""Tests of tools/edit_tables.py and tools/check_whole.py: what a table has, how many edits there are, what stays in
the gate, and what is missing."""

import unittest

from check_whole import mistakes_of, without_row
from edit_tables import count_mistakes, staying, staying_mistakes, table_of

PAGE = """\
# Testing

There are 2 edits in the gate and
30 outside it:

| The gate | has `kc_a/none` |
"""

TABLE = """\
### kc_new

| Function | Edits |
|---|---|
| `A::of` | `u`, `v` |
| `b` | `w` |
| `b`: more | `x` |
"""

STAYING = """\
## Edits

| no row | `kc_a/none` |

### The wrong bodies that stay in the gate

These stay.

| What the body does | Edits |
|---|---|
| it drops `x` | `kc_a/one`, `kc_b/two` |
| it is out of memory | by the cases `loads` |
| nobody sees it | review |

### The form of an edit

| no row | `kc_a/none` |
"""

WITHOUT = """\
| kc_a | `Rule` | in a row |

## What has no row

| Crate | Files | What they have |
|---|---|---|
| kc_a | `Names`, `Rows` | names |
| FILES.md | `In short` | rules |
"""


class Tables(unittest.TestCase):
    def test_a_table_has_its_functions_by_name(self) -> None:
        rows = {"`b`: more": ["x"], "`b`": ["w"], "`A::of`": ["u", "v"]}
        self.assertEqual(table_of("kc_new", rows), TABLE)

    def test_the_page_has_the_numbers_of_edits(self) -> None:
        self.assertEqual(list(count_mistakes(PAGE, (2, 30))), [])
        for counts in ((3, 30), (2, 31), (30, 2)):
            wanted = f"it has 2 and 30, and there are {counts[0]} edits in the gate and {counts[1]} outside it"
            self.assertEqual(list(count_mistakes(PAGE, counts)), [wanted])
        wanted = "it does not say that there are 2 edits in the gate and 30 outside it"
        self.assertEqual(list(count_mistakes(STAYING, (2, 30))), [wanted])

    def test_what_stays_in_the_gate_is_there(self) -> None:
        bodies = [row[0] for row in staying(STAYING)]
        self.assertEqual(bodies, ["it drops `x`", "it is out of memory", "nobody sees it"])
        there = {"kc_a/one", "loads"}
        wanted = ["'it drops `x`': kc_b/two is not in the gate", "'nobody sees it': no edit is named, and no cases"]
        self.assertEqual(list(staying_mistakes(STAYING, there.__contains__)), wanted)

    def test_a_page_that_names_nothing_that_stays_is_a_mistake(self) -> None:
        self.assertEqual(len(list(staying_mistakes(PAGE, lambda item: True))), 1)

    def test_what_has_no_row_is_read(self) -> None:
        self.assertEqual(without_row(WITHOUT), {("kc_a", "Names"), ("kc_a", "Rows"), ("FILES.md", "In short")})

    def test_what_is_missing_is_named(self) -> None:
        there = {("kc_a", name) for name in ("Named", "Missing", "Excepted", "Both")}
        named = {("kc_a", "Named"), ("kc_a", "Both")}
        excepted = {("kc_a", "Excepted"), ("kc_a", "Both"), ("kc_a", "Gone")}
        wanted = [
            "'Missing' of kc_a: no row names it",
            "'Both' of kc_a: it has a row",
            "'Gone' of kc_a: it is not there, or no public contract reaches it",
        ]
        self.assertEqual(list(mistakes_of(there, named, excepted)), wanted)


if __name__ == "__main__":
    unittest.main()
