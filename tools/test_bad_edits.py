#!/usr/bin/env python3
"""Tests of tools/bad_edits.py and of .ci/run: what fails the gate. In place of `rt`, and of the checks before it, are
scripts that write what they would."""

import os
import shutil
import subprocess
import tempfile
import unittest
from pathlib import Path

from check_rules import ROOT

REFUSED = "rt: must-fail kc_a/one.edit: refused, as it must be: src/lib.rt:3:5: error: no proof\n"
PASSED = REFUSED + "rt: ok; handles allowed: none\n4 passed, 0 failed\n"
BAD = "rt: must-fail kc_a/two.edit: BAD EDIT: the prover cannot read the edited text\n"
NOT_TRIED = "rt: must-fail kc_a/two.edit: NOT TRIED: its check ended with status 9: run this again\n"
NOT_REFUSED = "rt: must-fail kc_a/two.edit: NOT REFUSED: the crate is still proved with this edit\n"


class Gate(unittest.TestCase):
    def setUp(self) -> None:
        folder = tempfile.TemporaryDirectory()
        self.addCleanup(folder.cleanup)
        self.top, self.bin = Path(folder.name, "checkout"), Path(folder.name, "bin")
        for name in (".ci/run", "tools/bad_edits.py"):
            (self.top / name).parent.mkdir(parents=True)
            shutil.copy(ROOT / name, self.top / name)
        self.bin.mkdir()

    def script(self, path: Path, text: str, status: int) -> None:
        """Makes a script that writes a text, half of it as an error, and ends with a status."""
        lines = text.splitlines()
        writes = [f"printf '%s\\n' '{line}' >&{1 + place % 2}" for place, line in enumerate(lines, len(lines) % 2 + 1)]
        notes = [f'printf "%s\\n" "{it}" >>"$0.{end}"' for it, end in (("$*", "words"), ("$RT_JOBS", "jobs"))]
        said = ["#!/bin/sh", *notes, 'pwd >>"$0.folder"', *writes, f"exit {status}", ""]
        path.write_text("\n".join(said), encoding="utf-8")
        path.chmod(0o755)

    def run_gate(self, text: str, status: int = 0, before: int = 0) -> "subprocess.CompletedProcess[str]":
        self.script(self.bin / "rt", text, status)
        self.script(self.top / "tools" / "check_all.sh", "check_all.sh: all 3 checks passed\n", before)
        names = {**os.environ, "PATH": f"{self.bin}:{os.environ['PATH']}"}
        gate = self.top / ".ci" / "run"
        return subprocess.run([gate], capture_output=True, text=True, env=names, cwd="/", check=False)

    def test_a_run_that_passes_is_shown_and_nothing_is_added(self) -> None:
        ran = self.run_gate(PASSED)
        self.assertEqual((ran.returncode, ran.stdout), (0, "check_all.sh: all 3 checks passed\n" + PASSED))

    def test_rt_runs_at_the_top_with_no_names(self) -> None:
        self.run_gate(PASSED)
        self.assertEqual((self.bin / "rt.words").read_text(), "ci\n")
        self.assertEqual((self.bin / "rt.folder").read_text(), f"{self.top.resolve()}\n")

    def test_rt_runs_one_check_on_each_processor_at_most(self) -> None:
        self.run_gate(PASSED)
        jobs = int((self.bin / "rt.jobs").read_text())
        self.assertTrue(1 <= jobs <= len(os.sched_getaffinity(0)), jobs)

    def test_an_edit_that_cannot_be_read_or_was_not_tried_fails(self) -> None:
        for line in (BAD, NOT_TRIED):
            with self.subTest(line):
                ran = self.run_gate(line + PASSED)
                self.assertEqual(ran.returncode, 1)
                self.assertIn(line + PASSED + line, ran.stdout)
                self.assertIn("the gate has failed", ran.stdout.splitlines()[-1])

    def test_a_run_that_fails_fails_with_its_status(self) -> None:
        ran = self.run_gate(NOT_REFUSED + "rt: FAILED: kc_a/two.edit\n3 passed, 1 failed\n", status=3)
        self.assertEqual((ran.returncode, ran.stdout.splitlines()[-1]), (3, "3 passed, 1 failed"))

    def test_a_run_that_fails_and_has_a_bad_edit_fails(self) -> None:
        self.assertNotEqual(self.run_gate(BAD + "3 passed, 1 failed\n", status=1).returncode, 0)

    def test_where_a_check_fails_nothing_is_proved(self) -> None:
        self.assertEqual(self.run_gate(PASSED, before=1).returncode, 1)
        self.assertFalse((self.bin / "rt.words").exists())

    def test_no_file_is_left_in_the_checkout(self) -> None:
        self.run_gate(BAD + PASSED)
        left = {str(path.relative_to(self.top)) for path in self.top.rglob("*") if path.is_file()}
        stubs = {f"tools/check_all.sh{end}" for end in ("", ".words", ".jobs", ".folder")}
        self.assertEqual(left - stubs, {".ci/run", "tools/bad_edits.py"})


if __name__ == "__main__":
    unittest.main()
