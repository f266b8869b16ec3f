#!/usr/bin/env python3
"""Tests of tools/judge_names.py, with a program that prints findings, and of the list that it goes by."""

import subprocess
import sys
import tempfile
import unittest
from pathlib import Path
from typing import List, Tuple

from judge_names import Found, read_list

TOOLS = Path(__file__).resolve().parent

# A line of `check`, the name that is undefined in it, and what is proposed; empty where there is none.
LINES: List[Tuple[str, str, str]] = [
    ("net/Kconfig:8: B: undefined: NETWROK (always n); did you mean NETWORK?", "NETWROK", "NETWORK"),
    ("Kconfig:8: undefined: NETWROK (always n); did you mean NETWORK?", "NETWROK", "NETWORK"),
    ("Kconfig:4: B: undefined: select CRC23 has no effect; did you mean CRC32?", "CRC23", "CRC32"),
    ("Kconfig:4: B: undefined: imply CRC23 has no effect", "CRC23", ""),
    ("Kconfig:3: B: undefined: ARM64 (always n)", "ARM64", ""),
    ("Kconfig:7: S: undefined: plain (a text); did you mean PLAN?", "plain", "PLAN"),
    ("Kconfig:4: B: select X has no effect: X is a member of a choice", "", ""),
    ("A: given, and used nowhere", "", ""),
    ("2 findings, 1 undefined name (--undefined lists it)", "", ""),
]

PROGRAM = """#!/bin/sh
[ "$1 $3 $4" = "check $FOLDER/expanded Kconfig" ] || exit 3
cat << END
a/Kconfig:1: A: undefined: ARCH_XGENE (always n); did you mean AHCI_XGENE?
a/Kconfig:2: A: undefined: NETWROK (always n); did you mean NETWORK?
a/Kconfig:3: A: undefined: NETWROK (always n); did you mean NETWORK?
a/Kconfig:4: A: undefined: OLD_NAME (always n)
4 findings
END
"""

LIST = "# a comment\nlinux NETWROK NETWORK right  # a typing error\n\nlinux OLD_NAME NEW_NAME right\nlinux A B right\n"
JUDGED = "linux ARCH_XGENE AHCI_XGENE wrong\n"

# A list, and the status and the lines that are printed for it, but the last.
RUNS: List[Tuple[str, int, List[str], str]] = [
    (
        LIST + JUDGED,
        0,
        [
            "1 (2) right, 1 (1) wrong, 0 (0) not judged, of 2 proposals",
            "right, but not proposed: linux OLD_NAME NEW_NAME",
        ],
        "50 percent of 2 judged proposals are right; 0 are not judged",
    ),
    (
        LIST + "xen ARCH_XGENE AHCI_XGENE wrong\n",
        1,
        [
            "1 (2) right, 0 (0) wrong, 1 (1) not judged, of 2 proposals",
            "not judged: linux ARCH_XGENE AHCI_XGENE  # a/Kconfig:1",
            "right, but not proposed: linux OLD_NAME NEW_NAME",
        ],
        "100 percent of 1 judged proposals are right; 1 are not judged",
    ),
    ("", 1, ["0 (0) right, 0 (0) wrong, 2 (3) not judged, of 2 proposals", "NETWROK", "ARCH_XGENE"], "none"),
]

MALFORMED = ["linux A B\n", "linux A B maybe\n", "linux A B right wrong\n", "linux A B right\nlinux A B wrong\n"]


class Judge(unittest.TestCase):
    def setUp(self) -> None:
        folder = tempfile.TemporaryDirectory()
        self.addCleanup(folder.cleanup)
        self.folder = Path(folder.name)
        (self.folder / "expanded").mkdir()
        (self.folder / "expanded" / "Kconfig").touch()
        self.program = self.folder / "program"
        self.program.write_text(PROGRAM.replace("$FOLDER", str(self.folder)))
        self.program.chmod(0o755)

    def judge(self, text: str, *words: str) -> "subprocess.CompletedProcess[str]":
        (self.folder / "list").write_text(text)
        command = [sys.executable, TOOLS / "judge_names.py", self.program, self.folder / "list"]
        return subprocess.run([*command, *(words or (f"linux={self.folder}",))], capture_output=True, text=True)

    def test_lines(self) -> None:
        for line, name, proposed in LINES:
            with self.subTest(line):
                found = Found()
                found.add(line)
                self.assertEqual(found.undefined, {name} if name else set())
                self.assertEqual(list(found.lines), [(name, proposed)] if proposed else [])

    def test_runs(self) -> None:
        for text, status, wanted, last in RUNS:
            with self.subTest(text):
                done = self.judge(text)
                self.assertEqual((done.returncode, done.stderr), (status, ""))
                *lines, ending = done.stdout.splitlines()
                self.assertTrue(ending.startswith(last), ending)
                self.assertEqual(len(lines), len(wanted), lines)
                for words in wanted:
                    self.assertIn(words, done.stdout)

    def test_mistakes(self) -> None:
        for text in MALFORMED:
            with self.subTest(text):
                done = self.judge(text)
                self.assertEqual((done.returncode, done.stdout), (2, ""))
                self.assertIn("list:", done.stderr)
        self.assertEqual(self.judge(LIST, "linux").returncode, 2)
        self.assertEqual(self.judge(LIST, f"linux={self.folder}/none").returncode, 2)
        self.program.write_text("#!/bin/sh\nexit 1\n")
        self.assertEqual(self.judge(LIST).returncode, 2)

    def test_the_variables_are_given(self) -> None:
        (self.folder / "words").write_text("A=b\n")
        words = f"--undefined --variables {(self.folder / 'words').resolve()}"
        self.program.write_text(f'#!/bin/sh\nshift 4\n[ "$*" = "{words}" ] || exit 1\n')
        self.assertEqual(self.judge(LIST).returncode, 0)

    def test_the_list_is_well_formed(self) -> None:
        verdicts = read_list(str(TOOLS / "near_names.txt"))
        self.assertEqual(verdicts["linux"]["CONFIG_STM", "STM"], "right")


if __name__ == "__main__":
    unittest.main()
