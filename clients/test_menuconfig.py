#!/usr/bin/env python3
"""Drives clients/menuconfig.py in a terminal of 80 columns and 24 lines, and reads its screen.

    clients/test_menuconfig.py PROGRAM

PROGRAM is a built kconf. It needs tmux for the terminal; where there is none, it says so and tests nothing.
"""

from __future__ import annotations

import shlex
import shutil
import subprocess
import sys
import tempfile
import time
import unittest
from pathlib import Path

CLIENT = Path(__file__).resolve().with_name("menuconfig.py")
SECONDS = 20.0

KCONFIG = """\
menu "Network"

menuconfig NET
	bool "Network support"
	help
	  Say y where the board has a network.

	  The drivers come below.

config WIFI
	tristate "Wireless"
	depends on NET
	select CRC

config BUFFERS
	int "Buffers for each device"
	depends on NET
	range 1 64
	default 4

config HOST
	string "Name of the host"
	depends on NET
	default "board"

endmenu

choice
	prompt "Speed of the bus"

config SLOW
	bool "Slow"

config FAST
	bool "Fast"

endchoice

config LOW_POWER
	bool "Low power"
	depends on SLOW

config CRC
	tristate "Checksums"

comment "A board without a network"
	depends on !NET

config MODULES
	bool "Loadable modules"
	default y
	option modules
"""

# A tree in which the whole .config, read again, gives RADIO another value: m in place of the default y.
CHANGED_BY_ITS_CONFIG = """\
config MODULES
	def_bool y
	option modules

config BUS
	def_tristate m

config RADIO
	tristate "Radio" if BUS
	default y

config QUIET
	bool "Quiet"

menu "Antennas"
	depends on RADIO = y

config LONG
	bool "Long"

endmenu
"""

# Lines of a .config that is saved: those of the one that was loaded, and the edits.
SAVED = {
    "CONFIG_NET=y", "CONFIG_WIFI=y", "CONFIG_BUFFERS=9", 'CONFIG_HOST="a \\"b\\" \\\\ c"',
    "# CONFIG_SLOW is not set", "CONFIG_FAST=y", "CONFIG_CRC=y",
}


class Terminal:
    """A server of tmux for this test alone, with one terminal."""

    def __init__(self, command: list[str], folder: Path) -> None:
        self.room = tempfile.TemporaryDirectory()
        environment = ["env", "LC_ALL=C.UTF-8", f"TMPDIR={self.room.name}", *command]
        line = f"cd {shlex.quote(str(folder))} && {shlex.join(environment)}; echo \"status $?\"; exec sleep 60"
        self.tmux("new-session", "-d", "-x", "80", "-y", "24", line)

    def tmux(self, *words: str) -> str:
        """What a command of tmux prints."""
        command = ["tmux", "-S", f"{self.room.name}/socket", "-f", "/dev/null", *words]
        return subprocess.run(command, check=True, stdout=subprocess.PIPE, text=True).stdout

    def press(self, *keys: str) -> None:
        """Presses keys, by the names that tmux has for them."""
        self.tmux("send-keys", *keys)

    def type(self, text: str) -> None:
        """Types a text, and Enter."""
        self.tmux("send-keys", "-l", text)
        self.press("Enter")

    def screen(self) -> str:
        """What is on the screen."""
        return self.tmux("capture-pane", "-p")

    def close(self) -> None:
        """Ends the terminal, and what runs in it."""
        self.tmux("kill-server")
        self.room.cleanup()


class Menus(unittest.TestCase):
    program = ""

    def setUp(self) -> None:
        room = tempfile.TemporaryDirectory()
        self.addCleanup(room.cleanup)
        self.folder = Path(room.name)
        (self.folder / "Kconfig").write_text(KCONFIG, encoding="utf-8")

    def start(self, config: str | None = "# CONFIG_NET is not set\n", *words: str) -> None:
        """Starts the client on a .config, or without one."""
        if config is not None:
            (self.folder / ".config").write_text(config, encoding="utf-8")
        command = [sys.executable, str(CLIENT), "--kconf", self.program, "Kconfig", *(words or (".config",))]
        self.terminal = Terminal(command, self.folder)
        self.addCleanup(self.terminal.close)

    def sees(self, *wanted: str, without: str | None = None) -> None:
        """Waits until the screen has these texts, and not the other."""
        end = time.monotonic() + SECONDS
        while True:
            screen = self.terminal.screen()
            if all(text in screen for text in wanted) and (without is None or without not in screen):
                return
            if time.monotonic() > end:
                self.fail(f"wanted {wanted}, without {without}, on this screen:\n{screen}")
            time.sleep(0.05)

    def kconf(self, target: str, config: str) -> str:
        """What kconf writes for a .config."""
        command = [self.program, target, "Kconfig", config]
        return subprocess.run(command, cwd=self.folder, check=True, stdout=subprocess.PIPE, text=True).stdout

    def saved(self) -> str:
        """The .config."""
        return (self.folder / ".config").read_text(encoding="utf-8")

    def test_an_edit_takes_effect_at_once(self) -> None:
        self.start()
        self.sees("Main menu", "Network  --->", "Speed of the bus (Slow)  --->", "*** A board without a network ***")
        self.terminal.press("Enter")
        self.sees("[ ] Network support  ----", "bool at Kconfig:3", without="(not saved)")
        self.terminal.press("Space")
        self.sees("[*] Network support  --->", "NET=y", "(not saved)")
        self.terminal.press("Right")
        self.sees("Network > Network support", "< > Wireless", "(4) Buffers for each device", "(board) Name of the")
        self.terminal.press("Space")
        self.sees("<M> Wireless", "WIFI=m, and 1 more: CRC=m")
        self.terminal.press("y")
        self.sees("<*> Wireless", "WIFI=y, and 1 more: CRC=y")
        self.terminal.press("h", "Left")
        self.sees("Main menu", "-*- Checksums", without="A board without a network")

    def test_numbers_and_texts(self) -> None:
        self.start("CONFIG_NET=y\n")
        self.sees("Main menu")
        self.terminal.press("l", "l", "j")
        self.sees("BUFFERS int at Kconfig:15, range 1 to 64")
        self.terminal.press("Enter", "C-u")
        self.terminal.type("99")
        self.sees("BUFFERS stays 4: 99 is outside the range 1 to 64", "(4) Buffers", without="(not saved)")
        self.terminal.press("Enter", "C-u")
        self.terminal.type("many")
        self.sees("many is no value of BUFFERS, which is an int", "(4) Buffers", without="(not saved)")
        self.terminal.press("Enter", "BSpace")
        self.terminal.type("12")
        self.sees("(12) Buffers for each device", "BUFFERS=12")
        self.terminal.press("Down", "Enter", "C-u")
        self.terminal.type('a "b" \\ c')
        self.sees('(a "b" \\ c) Name of the host')
        self.terminal.press("Enter", "Escape")
        self.sees('(a "b" \\ c) Name of the host', without="Name of the host: ")

    def test_a_member_of_a_choice_takes_the_place_of_another(self) -> None:
        self.start()
        self.sees("Speed of the bus (Slow)  --->", "[ ] Low power")
        self.terminal.press("j", "l")
        self.sees(" Speed of the bus", "(X) Slow", "( ) Fast", "SLOW bool at Kconfig:31")
        self.terminal.press("j", "Space")
        self.sees("( ) Slow", "(X) Fast")
        self.terminal.press("Escape")
        self.sees("Speed of the bus (Fast)  --->", without="Low power")

    def test_what_is_saved_is_what_kconf_writes(self) -> None:
        self.start("CONFIG_NET=y\nCONFIG_BUFFERS=9\nCONFIG_HOST=\"a \\\"b\\\" \\\\ c\"\n")
        self.sees("Main menu")
        self.terminal.press("l", "l", "y", "h", "h", "j", "l", "j", "Enter")
        self.sees("(X) Fast", "(not saved)")
        self.terminal.press("s")
        self.sees("saved .config", without="(not saved)")
        text = self.saved()
        self.assertLessEqual(SAVED, set(text.splitlines()))
        self.assertEqual(text, self.kconf("olddefconfig", ".config"))
        self.assertEqual(sorted(path.name for path in self.folder.iterdir()), [".config", "Kconfig"])
        self.terminal.press("d")
        self.sees("Save as: defconfig_")
        self.terminal.press("Enter")
        self.sees("saved defconfig")
        written = (self.folder / "defconfig").read_text(encoding="utf-8")
        self.assertEqual(written, self.kconf("savedefconfig", ".config"))
        self.terminal.press("q")
        self.sees("status 0")

    def test_an_edit_is_taken_back_by_u(self) -> None:
        self.start("CONFIG_NET=y\nCONFIG_BUFFERS=9\n")
        self.sees("Network  --->")
        self.terminal.press("l", "l", "j")
        self.sees("(9) Buffers")
        self.terminal.press("u")
        self.sees("(4) Buffers", "BUFFERS=4")

    def test_a_value_that_others_decide_is_refused_in_words(self) -> None:
        self.start("CONFIG_NET=y\nCONFIG_WIFI=y\n")
        self.sees("-*- Checksums")
        self.terminal.press("End", "k", "n")
        self.sees("CRC can't be n now", "-*- Checksums", without="(not saved)")
        self.terminal.press("Space")
        self.sees("CRC can't be changed now")

    def test_what_is_shown_is_by_the_values_of_the_session(self) -> None:
        (self.folder / "Kconfig").write_text(CHANGED_BY_ITS_CONFIG, encoding="utf-8")
        self.start(None)
        self.sees("<*> Radio", "Antennas  --->")
        self.terminal.press("j", "y")
        self.sees("<*> Radio", "[*] Quiet", "QUIET=y")
        self.sees("Antennas  --->")

    def test_search_goes_to_what_it_finds(self) -> None:
        self.start("CONFIG_NET=y\n")
        self.sees("Main menu")
        self.terminal.press("/")
        self.sees("Find in names and prompts: _")
        self.terminal.type("wire")
        self.sees("Found: wire", "Wireless", "WIFI")
        self.terminal.press("Enter")
        self.sees("Network > Network support", "(4) Buffers", "tristate at Kconfig:10")
        self.terminal.press("/")
        self.terminal.type("low_")
        self.sees("Found: low_", "LOW_POWER")
        self.terminal.press("Escape", "/")
        self.terminal.type("nowhere")
        self.sees("Found: nowhere", "nothing is shown here")

    def test_help_says_what_an_entry_is(self) -> None:
        self.start()
        self.sees("Main menu")
        self.terminal.press("l", "?")
        self.sees("NET is a bool. Its value is n; the user's value is n.", "Say y where the board has a network.")
        self.sees("menuconfig at Kconfig:3", "The drivers come below.")
        self.terminal.press("q", "/")
        self.terminal.type("buffers")
        self.sees("Found: buffers")
        self.terminal.press("Enter")
        self.sees("config at Kconfig:15, not shown now", "Depends on: NET", "Range: 1 to 64", "Default: 4")

    def test_what_is_not_saved_is_asked_for(self) -> None:
        self.start()
        self.sees("Main menu")
        self.terminal.press("l", "y", "q")
        self.sees("Not saved. Save it?")
        self.terminal.press("Escape")
        self.sees("[*] Network support", without="Save it?")
        self.terminal.press("q", "n")
        self.sees("status 0")
        self.assertEqual(self.saved(), "# CONFIG_NET is not set\n")

    def test_a_config_that_is_not_there_is_made(self) -> None:
        self.start(None)
        self.sees("Main menu", "(not saved)")
        self.terminal.press("q")
        self.sees("Save it?")
        self.terminal.press("y")
        self.sees("status 0")
        self.assertEqual(self.saved(), self.kconf("olddefconfig", "-"))

    def test_without_a_config_it_asks_for_a_path(self) -> None:
        self.start(None, "-")
        self.sees("Main menu")
        (self.folder / "other").write_text("kept\n", encoding="utf-8")
        self.terminal.press("s", "C-u")
        self.terminal.type("other")
        self.sees("other is there. Replace it?")
        self.terminal.press("n")
        self.sees("not saved")
        self.assertEqual((self.folder / "other").read_text(encoding="utf-8"), "kept\n")

    def test_warnings_come_first(self) -> None:
        self.start("CONFIG_NET=y\nCONFIG_GONE=y\n")
        self.sees("Warnings of the .config", ".config:2: warning 1", "GONE")
        self.terminal.press("q")
        self.sees("Main menu")

    def test_a_kconfig_that_changed_is_reported_and_nothing_is_lost(self) -> None:
        self.start()
        self.sees("Main menu")
        (self.folder / "Kconfig").write_text("config NET\n\tbool \"Network support\"\n", encoding="utf-8")
        self.terminal.press("l", "y")
        self.sees("the Kconfig is another than at the start", "[*] Network support", "(not saved)")
        self.terminal.press("s")
        self.sees("saved .config")
        self.assertIn("CONFIG_NET=y\n", self.saved())

    def test_a_fault_of_the_kconfig_ends_it(self) -> None:
        (self.folder / "Kconfig").write_text("menu \"open\"\n", encoding="utf-8")
        self.start()
        self.sees("menuconfig.py: kconf: Kconfig:2: K07", "status 1")


def main() -> int:
    """Runs the tests with the program of the command line."""
    if len(sys.argv) != 2:
        print("usage: clients/test_menuconfig.py PROGRAM", file=sys.stderr)
        return 2
    if shutil.which("tmux") is None:
        print("skipped: there is no tmux, so there is no terminal to test in")
        return 0
    Menus.program = str(Path(sys.argv[1]).resolve())
    result = unittest.TextTestRunner().run(unittest.defaultTestLoader.loadTestsFromTestCase(Menus))
    return 0 if result.wasSuccessful() else 1


if __name__ == "__main__":
    sys.exit(main())
