#!/usr/bin/env python3
"""Tests of tools/compare_trees.sh and of tools/compare_conf.py, with scripts in place of kconf and of conf.

The tree is a small one whose makefiles give `conf` its variables as those of a kernel do.
"""

import os
import shutil
import subprocess
import tempfile
import unittest
from pathlib import Path

TOOL = Path(__file__).resolve().parent / "compare_trees.sh"
TREE = {
    "Makefile": "export ARCH ?= x86\nexport srctree = .\n%config:\n\t$(MAKE) -f sub.mk obj=scripts/kconfig $@\n",
    "sub.mk": "%config:\n\tfalse\n",
    "Kconfig": 'config A\n\tbool "$(ARCH)"\nconfig B\n\tbool "b"\n',
}
KCONF = """#!/bin/sh
case $1 in
    session) printf 'A type=bool value=y\\nB type=bool value=n\\nok\\n' ;;
    *) printf 'CONFIG_A=y\\n%s\\n' "$KCONF_LINE" ;;
esac
"""
CONF = """#!/bin/sh
# An old conf has no syncconfig.
case $1 in
    --savedefconfig=*) printf 'CONFIG_A=y\\n# CONFIG_B is not set\\n' > "${1#*=}" ;;
    --allyesconfig) %s ;;
    *) printf 'CONFIG_A=y\\n# CONFIG_B is not set\\n' > "$KCONFIG_CONFIG" ;;
esac
"""
PLAIN = 'printf "CONFIG_A=y\\\\n# CONFIG_B is not set\\\\n" > "$KCONFIG_CONFIG"'


@unittest.skipIf(shutil.which("make") is None, "make is not there")
class Comparison(unittest.TestCase):
    def setUp(self) -> None:
        room = tempfile.TemporaryDirectory()
        self.addCleanup(room.cleanup)
        self.folder = Path(room.name)
        (self.folder / "tree").mkdir()
        for path, text in TREE.items():
            (self.folder / "tree" / path).write_text(text)
        self.program("kconf", KCONF)

    def program(self, name: str, text: str) -> None:
        (self.folder / name).write_text(text)
        (self.folder / name).chmod(0o755)

    def compare(self, line: str, all_yes: str = PLAIN) -> tuple[int, list[str]]:
        """The status, and what is printed, where kconf writes a line for B, and conf does this for allyesconfig."""
        self.program("conf", (CONF % all_yes).replace("syncconfig", "sync"))
        command = ["bash", TOOL, "--kconf", "kconf", "--work", "work", "--conf", "conf", "tree", "ARCH=arm"]
        done = subprocess.run(
            command, cwd=self.folder, env={**os.environ, "KCONF_LINE": line},
            stdin=subprocess.DEVNULL, capture_output=True, text=True,
        )
        return done.returncode, (done.stdout + done.stderr).splitlines()

    def test_what_is_the_same(self) -> None:
        status, printed = self.compare("# CONFIG_B is not set")
        self.assertEqual((status, printed[-3:]), (0, ["8 lines, 0 differ", "1 file, 0 commands, 0 notes", "2 symbols"]))
        self.assertEqual((self.folder / "work/words").read_text(), "ARCH=arm\n")

    def test_what_differs(self) -> None:
        status, printed = self.compare("CONFIG_B=y")
        self.assertEqual((status, printed[-4:-2]), (1, ["8 lines, 4 differ", "4 unexplained"]))
        self.assertIn("    B: conf `# CONFIG_B is not set`, kconf `CONFIG_B=y`", printed)

    def test_a_conf_that_asks_without_end(self) -> None:
        status, printed = self.compare("# CONFIG_B is not set", "while :; do echo 'A number [] (NEW)' || exit 1; done")
        self.assertEqual((status, printed[-4:-2]), (1, ["6 lines, 1 differ", "1 conf or kconf fails"]))

    def test_usage_errors(self) -> None:
        for line in ("", "--kconf", "--kconf kconf tree", "--wrong", "--kconf kconf --work w none"):
            words = line.split()
            done = subprocess.run(["bash", TOOL, *words], cwd=self.folder, capture_output=True, text=True)
            self.assertEqual((done.returncode, done.stdout), (2, ""), words)
            self.assertRegex(done.stderr, r"^usage: tools/compare_trees.sh ")


if __name__ == "__main__":
    unittest.main()
