#!/usr/bin/env python3
"""A menu in the terminal for a Kconfig and its .config, over `kconf menu` and `kconf session`.

    clients/menuconfig.py [--kconf PROGRAM] KCONFIG CONFIG [NAME=VALUE]...

An example of a front end. Nothing in it is proved: each value, visibility and range that it shows is what kconf gave.
It reads `kconf menu` for the menus, prompts and help texts, and keeps a `kconf session` open for the edits. After an
edit it asks the session for all values, and runs `kconf menu` on the defconfig of now for what is shown and for
ranges.
clients/README.md has the keys. It needs Python 3.8 with curses, and no other package.
"""

from __future__ import annotations

import argparse
import contextlib
import curses
import io
import json
import locale
import os
import re
import subprocess
import sys
import tempfile
import textwrap
import unicodedata
from dataclasses import dataclass, field
from typing import Any, NamedTuple

TEXT = r'"(?:[^"\\]|\\.)*"|\S*'
SYMBOL = re.compile(rf"\S+ type=(\w+) value=({TEXT}) vis=[nmy] can=(\S+) user=({TEXT})", re.DOTALL)
TYPES = {"bool": "a bool", "tristate": "a tristate", "int": "an int", "hex": "a hex", "string": "a string"}
REFUSALS = {"3": "{value} is no value of {name}, which is {type}", "6": "the value of {name} is too long"}


class Refused(Exception):
    """What was asked for was not done, and why."""


class Symbol(NamedTuple):
    """What a session says of a symbol."""

    type: str
    value: str
    can: list[str]
    user: str | None


class Session:
    """A `kconf session`, which is kept open: a command in, the lines of its reply out."""

    def __init__(self, words: list[str], files: list[str], room: str) -> None:
        self.words, self.files, self.present = words, files, os.path.join(room, "config")
        self.objects, self.warnings = self.menu(files[1])
        self.process = subprocess.Popen([words[0], "session", *words[1:], "--", *files],
                                        stdin=subprocess.PIPE, stdout=subprocess.PIPE, stderr=subprocess.DEVNULL)
        # A value may have a carriage return, so only a line feed ends a line.
        self.replies = io.TextIOWrapper(self.process.stdout, "utf-8", "surrogateescape", newline="\n")
        self.refresh()

    def ask(self, command: str) -> list[str]:
        """The lines of the reply to a command, without its `ok`."""
        reply: list[str] = []
        with contextlib.suppress(BrokenPipeError):  # There is no reply either, which is seen below.
            self.process.stdin.write(command.encode("utf-8", "surrogateescape") + b"\n")
            self.process.stdin.flush()
        for line in self.replies:
            if line == "ok\n":
                return reply
            # A line of a list can begin so, too: that of a symbol of this name.
            if re.fullmatch(r"refused \d\n", line) and not reply:
                raise Refused(line.split()[1])
            reply.append(line[:-1])
        raise Refused(f"kconf session ended with the status {self.process.wait()}")

    def refresh(self) -> None:
        """Asks for the values and the .config anew, and writes the defconfig to a file for `kconf menu`.

        The defconfig gives the same values when it is read. The whole .config need not (docs/FILES.md).
        """
        self.lines = {line.split(" ", 1)[0]: line for line in self.ask("list")}
        self.config = "".join(line + "\n" for line in self.ask("config"))
        with open(self.present, "w", encoding="utf-8", errors="surrogateescape", newline="\n") as file:
            file.writelines(line + "\n" for line in self.ask("defconfig"))

    def symbol(self, name: str) -> Symbol:
        """A symbol as of the last `refresh`."""
        kind, value, can, user = SYMBOL.match(self.lines[name]).groups()
        value, given = (re.sub(r'\\(.)|"', r"\1", text, flags=re.DOTALL) for text in (value, user))
        return Symbol(kind, value, can.split(",") if can != "-" else [], None if user == "-" else given)

    def set(self, name: str, value: str | None) -> None:
        """Gives a symbol a user value, or takes it away."""
        try:
            self.ask(f"unset {name}" if value is None else f"set {name} {value}")
        except Refused as refused:
            words = REFUSALS.get(str(refused), f"kconf refuses this with the number {refused}")
            kind = TYPES[self.symbol(name).type]
            raise Refused(words.format(name=name, value=value or "an empty text", type=kind)) from refused
        self.refresh()

    def edit(self, name: str, value: str | None, bounds: list[str] | None) -> str:
        """Gives a symbol a value, and says what changed. An edit without its effect is taken back and refused."""
        old, before = self.symbol(name), self.lines
        if value is not None and old.type in ("bool", "tristate") and value not in old.can:
            raise Refused(f"{name} can't be {value} now, only {' or '.join(old.can) or old.value}")
        self.set(name, value)
        new = self.symbol(name)
        if value is not None and new.value != value:
            self.set(name, old.user)
            outside = f"{value} is outside the range {' to '.join(bounds)}" if bounds else f"it can't be {value} now"
            raise Refused(f"{name} stays {old.value}: {outside}")
        changed = [key for key, line in self.lines.items() if line != before[key] and key != name]
        others = [key for key in changed if SYMBOL.match(before[key])[2] != SYMBOL.match(self.lines[key])[2]]
        values = ", ".join(f"{key}={self.symbol(key).value}" for key in others)
        return f"{name}={new.value}" + (f", and {len(others)} more: {values}" if others else "")

    def menu(self, config: str, *options: str) -> tuple[list[dict[str, Any]], str]:
        """The objects of `kconf menu` on a .config, and the warnings of that."""
        words = [self.words[0], "menu", *options, *self.words[1:], "--", self.files[0], config, *self.files[2:]]
        done = subprocess.run(words, stdin=subprocess.DEVNULL, stdout=subprocess.PIPE, stderr=subprocess.PIPE)
        errors = done.stderr.decode("utf-8", "replace").strip()
        if done.returncode != 0:
            raise Refused(errors or f"{words[0]} menu ended with the status {done.returncode}")
        return [json.loads(line) for line in done.stdout.split(b"\n") if line], errors

    def write(self, command: str, path: str) -> None:
        """Writes the reply to `config` or `defconfig` to a new file beside the path, which then takes its place."""
        path = os.path.realpath(path)
        new = f"{path}.{os.getpid()}.new"
        try:
            with open(new, "x", encoding="utf-8", errors="surrogateescape", newline="\n") as file:
                file.writelines(line + "\n" for line in self.ask(command))
            if os.path.exists(path):
                os.chmod(new, os.stat(path).st_mode & 0o777)
            os.replace(new, path)
        finally:
            if os.path.exists(new):
                os.remove(new)
        if command == "config":
            self.saved = self.config


@dataclass(eq=False)
class Entry:
    """An entry of the tree: a menu, a choice, a comment, or a definition of a symbol."""

    kind: str
    prompt: str
    name: str
    facts: dict[str, Any]
    up: Entry | None = None
    inner: list[Entry] = field(default_factory=list)

    @property
    def is_shown(self) -> bool:
        return bool(self.prompt) and self.facts.get("shown", "n") != "n"

    @property
    def opens(self) -> bool:
        """Whether the entries in it are on a page of their own."""
        return self.kind in ("menu", "choice") or self.kind == "menuconfig" and bool(self.inner)

    def depends_on(self, name: str) -> bool:
        """Whether its prompt is shown only where the symbol is not n, as far as a single condition says so."""
        conditions = " && ".join(self.facts.get(key, "y") for key in ("depends", "prompt_if"))
        factors = re.sub(r"\(.*?\)+|\s", "", conditions).split("&&")
        return any(form in factors for form in (name, f"{name}=y", f"{name}=m", f"{name}!=n"))

    def lines(self) -> list[tuple[int, Entry]]:
        """What the page of this entry shows, each with how far it is indented."""
        shown, left = [], [(0, entry) for entry in reversed(self.inner)]
        while left:
            depth, entry = left.pop()
            if entry.is_shown:
                shown.append((depth, entry))
            # What depends on a symbol comes under its line, or takes the place of a line that is not shown.
            if entry.kind not in ("menu", "choice") and not (entry.is_shown and entry.opens):
                left += [(depth + entry.is_shown, inner) for inner in reversed(entry.inner)]
        return shown


class Tree:
    """The entries of `kconf menu`. Those that depend on the symbol before them are put under it."""

    def __init__(self, title: str, objects: list[dict[str, Any]]) -> None:
        self.top = Entry("menu", title, "", {"shown": "y"})
        self.entries = {0: self.top}
        last: dict[int, Entry] = {}
        for facts in objects:
            entry = Entry(facts["kind"], facts.get("prompt", ""), facts.get("name", ""), facts)
            around = self.entries[facts["parent"]]
            entry.up = around if around.kind == "choice" else last.get(facts["parent"], around)
            while entry.up is not around and not entry.depends_on(entry.up.name):
                entry.up = entry.up.up
            entry.up.inner.append(entry)
            self.entries[facts["id"]] = last[facts["parent"]] = entry

    def renew(self, objects: list[dict[str, Any]]) -> None:
        """Takes over what is shown now, and the ranges of now."""
        if [(facts["kind"], facts.get("name", "")) for facts in objects] != [(e.kind, e.name) for e in self.found("")]:
            raise Refused("the Kconfig is another than at the start")
        for facts in objects:
            self.entries[facts["id"]].facts.update(shown=facts.get("shown", "n"), range=facts.get("range"))

    def found(self, text: str) -> list[Entry]:
        """The entries whose name or prompt has the text, in their order."""
        return [e for i, e in self.entries.items() if i and text.lower() in f"{e.name}\n{e.prompt}".lower()]


ESCAPE, ENTER, DELETE = "\x1b", ("\n", "\r", curses.KEY_ENTER), ("\x7f", "\b", curses.KEY_BACKSPACE)
KEYS: dict[int | str, str] = {
    curses.KEY_UP: "up", "k": "up", curses.KEY_DOWN: "down", "j": "down", "g": "first", "G": "last",
    curses.KEY_PPAGE: "page up", curses.KEY_NPAGE: "page down", curses.KEY_HOME: "first", curses.KEY_END: "last",
    curses.KEY_RIGHT: "enter", "l": "enter", **dict.fromkeys(ENTER, "enter"),
    curses.KEY_LEFT: "leave", "h": "leave", ESCAPE: "leave", **dict.fromkeys(DELETE, "leave"),
    " ": "cycle", "y": "y", "m": "m", "n": "n", "u": "unset", "?": "help", "/": "search",
    "s": "config", "d": "defconfig", "q": "quit",
}
HINTS = "Space/y/m/n set  u unset  Enter open  h back  ? help  / find  s/d save  q quit"


def fit(text: str, width: int) -> str:
    """As much of a text as has room, with a `?` for each character that can't be printed."""
    fitting = []
    for char in (char if char.isprintable() else "?" for char in text):
        width -= 2 if unicodedata.east_asian_width(char) in "WF" else 0 if unicodedata.combining(char) else 1
        if width < 0:
            break
        fitting.append(char)
    return "".join(fitting)


@dataclass
class Page:
    """A menu, or what a search found, with the entry that the cursor is on."""

    title: str
    menu: Entry | None
    found: list[Entry] = field(default_factory=list)
    current: Entry | None = None
    line: int = 0

    def lines(self) -> list[tuple[int, Entry]]:
        """What the page shows. The cursor stays on its entry where lines before it come and go."""
        lines = self.menu.lines() if self.menu else [(0, entry) for entry in self.found]
        self.line = next((at for at, (_, entry) in enumerate(lines) if entry is self.current), self.line)
        self.move(lines, 0)
        return lines

    def move(self, lines: list[tuple[int, Entry]], by: int) -> None:
        self.line = max(0, min(self.line + by, len(lines) - 1))
        self.current = lines[self.line][1] if lines else None


class Screen:
    """Draws the pages, and does what the keys say."""

    def __init__(self, window: Any, session: Session, target: str | None) -> None:
        self.window, self.session, self.target = window, session, target
        self.tree = Tree(session.files[0], session.objects)
        self.pages = [Page(self.tree.top.prompt, self.tree.top)]
        self.status, self.is_refusal = "", False
        with contextlib.suppress(curses.error):  # Not each terminal can hide its cursor.
            curses.curs_set(0)
        if curses.has_colors():
            curses.use_default_colors()
            curses.init_pair(1, curses.COLOR_WHITE, curses.COLOR_BLUE)
            curses.init_pair(2, curses.COLOR_RED, -1)

    def run(self) -> None:
        """Shows pages until the user quits."""
        if self.session.warnings:
            self.read("Warnings of the .config", self.session.warnings.split("\n"))
        while True:
            self.draw()
            action = KEYS.get(self.window.get_wch(), "")
            self.status, self.is_refusal = "", False
            try:
                if action == "quit":
                    return self.quit()
                self.do(action, self.pages[-1])
            except (Refused, OSError) as error:  # What was edited can still be saved.
                self.status, self.is_refusal = str(error).split("\n")[0], True

    def do(self, action: str, page: Page) -> None:
        """Does what a key says."""
        lines, height = page.lines(), max(1, self.window.getmaxyx()[0] - 6)
        moves = {"up": -1, "down": 1, "page up": -height, "page down": height, "first": -len(lines), "last": len(lines)}
        entry = page.current
        if action in moves:
            page.move(lines, moves[action])
        elif action == "leave":
            del self.pages[max(1, len(self.pages) - 1):]
        elif action == "search":
            self.search()
        elif action in ("config", "defconfig"):
            self.save(action)
        elif entry and (action == "help" or action == "enter" and not entry.is_shown):
            self.read(entry.prompt or entry.name, self.help(entry))
        elif entry and action == "enter" and page.menu is None:
            self.go_to(entry)
        elif entry and action == "enter" and entry.opens:
            self.pages.append(Page(entry.prompt, entry))
        elif entry and entry.name and action in ("enter", "cycle", "y", "m", "n", "unset"):
            self.change(entry, action)

    def change(self, entry: Entry, action: str) -> None:
        """Gives a symbol its next value, the one of the key, a text, or its default again."""
        if not entry.is_shown:
            raise Refused(f"{entry.name} is not shown now: ? says what it depends on")
        symbol = self.session.symbol(entry.name)
        if action == "unset":
            value = None
        elif symbol.type not in ("bool", "tristate"):
            value = self.ask(f"{entry.prompt}: ", symbol.value)
        elif action in ("n", "m", "y"):
            value = action
        elif entry.up.kind == "choice":
            value = "y"
        elif len(symbol.can) < 2:
            raise Refused(f"{entry.name} can't be changed now: other symbols decide it")
        else:
            value = next((can for can in symbol.can if "nmy".index(can) > "nmy".index(symbol.value)), symbol.can[0])
        self.status = self.session.edit(entry.name, value, entry.facts.get("range"))
        self.tree.renew(self.session.menu(self.session.present, "--no-help")[0])

    def search(self) -> None:
        """Asks for a text, and shows the entries whose name or prompt has it."""
        text = self.ask("Find in names and prompts: ")
        self.pages.append(Page(f"Found: {text}", None, self.tree.found(text)))

    def go_to(self, entry: Entry) -> None:
        """Opens the page that shows an entry, and those that lead there."""
        way = [entry]
        while way[-1].up:
            way.append(way[-1].up)
        menus = [above for above in reversed(way[1:]) if above.is_shown and above.opens]
        self.pages = [Page(menu.prompt, menu, current=inner) for menu, inner in zip(menus, menus[1:] + [entry])]

    def save(self, command: str) -> None:
        """Writes the .config; or the defconfig, and the .config where CONFIG is `-`, to a path that it asks for."""
        path = self.target if command == "config" else None
        if path is None:
            path = self.ask("Save as: ", ".config" if command == "config" else "defconfig")
            if not path or os.path.exists(path) and not self.choose(f"{path} is there. Replace it? (y or n)"):
                raise Refused("not saved")
        self.session.write(command, path)
        self.status = f"saved {path}"

    def quit(self) -> None:
        """Asks what to do with changes that are not saved."""
        if self.session.saved != self.session.config and self.choose("Not saved. Save it? (y, n, or Escape to stay)"):
            self.save("config")

    def help(self, entry: Entry) -> list[str]:
        """What there is to say of an entry."""
        facts, lines = entry.facts, []
        if entry.name:
            symbol = self.session.symbol(entry.name)
            user = "no value of the user" if symbol.user is None else f"the user's value is {symbol.user or 'empty'}"
            lines = [f"{entry.name} is {TYPES[symbol.type]}. Its value is {symbol.value or 'empty'}; {user}."]
        lines.append(f"{entry.kind} at {facts.get('at', '?')}" + ("" if entry.is_shown else ", not shown now"))
        lines += ["", *facts.get("help", "(no help)").split("\n"), ""]
        for title, key in (("Depends on", "depends"), ("Prompt if", "prompt_if"), ("Visible if", "visible_if")):
            lines += [f"{title}: {facts[key]}"] if facts.get(key) else []
        for title, key in (("Selects", "selects"), ("Implies", "implies")):
            lines += [f"{title}: {', '.join(facts[key])}"] if facts.get(key) else []
        for title, key in (("Range", "ranges"), ("Default", "defaults")):
            for *values, condition in facts.get(key, []):
                lines.append(f"{title}: {' to '.join(values)}" + (f" if {condition}" if condition else ""))
        return lines + ([f"Range now: {' to '.join(facts['range'])}"] if facts.get("range") else [])

    def label(self, entry: Entry) -> str:
        """How an entry looks on its line."""
        arrow = ("  --->" if entry.lines() else "  ----") if entry.opens else ""
        if entry.kind == "comment":
            return f"    *** {entry.prompt} ***"
        if entry.kind == "choice":
            members = [member for member in entry.inner if member.name]
            chosen = [member.prompt for member in members if self.session.symbol(member.name).value == "y"]
            return f"    {entry.prompt} ({chosen[0] if chosen else 'none'}){arrow}"
        if not entry.name:
            return f"    {entry.prompt}{arrow}"
        symbol = self.session.symbol(entry.name)
        if symbol.type not in ("bool", "tristate"):
            return f"({symbol.value}) {entry.prompt}{arrow}"
        if entry.up.kind == "choice":
            return f"({'X' if symbol.value == 'y' else ' '}) {entry.prompt}"
        left, right = "--" if len(symbol.can) < 2 else "[]" if symbol.type == "bool" else "<>"
        return f"{left}{' M*'['nmy'.index(symbol.value)]}{right} {entry.prompt}{arrow}"

    def put(self, row: int, text: str, look: int = 0, column: int = 1) -> None:
        """Writes a text, as far as there is room."""
        with contextlib.suppress(curses.error):  # The terminal may have no such line.
            self.window.addstr(row, column, fit(text, self.window.getmaxyx()[1] - column - 1), look)

    def frame(self, title: str, hints: str) -> int:
        """Clears the screen, draws what is at its top and its bottom, and gives the number of lines between."""
        self.window.erase()
        height, width = self.window.getmaxyx()
        changed = "" if self.session.saved == self.session.config else " (not saved)"
        self.put(0, f" kconf: {self.tree.top.prompt}{changed}".ljust(width), curses.color_pair(1) | curses.A_BOLD, 0)
        self.put(1, title, curses.A_BOLD)
        self.put(height - 2, self.status, curses.A_BOLD | (curses.color_pair(2) if self.is_refusal else 0))
        self.put(height - 1, hints, curses.A_DIM)
        return max(1, height - 6)

    def draw(self) -> None:
        """Draws the last page."""
        page, width = self.pages[-1], self.window.getmaxyx()[1]
        lines = page.lines()
        room = self.frame(" > ".join(page.title for page in self.pages[1:]) or "Main menu", HINTS)
        first = max(0, min(page.line - room // 2, len(lines) - room))
        for row, (depth, entry) in enumerate(lines[first:first + room], 3):
            look = curses.A_REVERSE if entry is page.current else 0
            text = f" {'  ' * min(depth, 12)}{self.label(entry)}"
            self.put(row, text.ljust(width), look)
            if entry.name and len(text) + len(entry.name) < width - 5:
                self.put(row, entry.name, look | curses.A_DIM, width - len(entry.name) - 3)
        facts = page.current.facts if page.current else {"kind": "nothing is shown here"}
        place = f" at {facts['at']}" if "at" in facts else ""
        bounds = f", range {' to '.join(facts['range'])}" if facts.get("range") else ""
        what = f"{facts.get('name', '')} {facts.get('type', facts['kind'])}{place}{bounds}"
        self.put(3 + room, what.strip(), curses.A_DIM)
        self.window.refresh()

    def read(self, title: str, lines: list[str]) -> None:
        """Shows a text until the user leaves it."""
        top, action = 0, ""
        while action not in ("quit", "leave", "enter", "help"):
            room = self.frame(title, "j/k, arrows and pages scroll  h or q leaves")
            width = max(20, self.window.getmaxyx()[1] - 4)
            wrapped = [part for line in lines for part in textwrap.wrap(line, width) or [""]]
            moves = {"up": -1, "down": 1, "page up": -room, "page down": room, "cycle": room}
            top = max(0, min(top + moves.get(action, 0), len(wrapped) - room))
            for row, line in enumerate(wrapped[top:top + room], 3):
                self.put(row, line)
            self.window.refresh()
            action = KEYS.get(self.window.get_wch(), "")

    def key(self, question: str) -> int | str:
        """A key in answer to a question. Escape refuses it."""
        self.status = question
        self.draw()
        key = self.window.get_wch()
        self.status = ""
        if key == ESCAPE:
            raise Refused("")
        return key

    def ask(self, question: str, text: str = "") -> str:
        """A line of text from the user."""
        key: int | str = ""
        while key not in ENTER:
            if key in DELETE or key == "\x15":
                text = "" if key == "\x15" else text[:-1]
            elif isinstance(key, str) and key.isprintable():
                text += key
            room = max(10, self.window.getmaxyx()[1] - len(question) - 4)
            key = self.key(f"{question}{text[-room:]}_")
        return text

    def choose(self, question: str) -> bool:
        """Whether the user answers y, not n."""
        while (key := self.key(question)) not in ("y", "n"):
            pass
        return key == "y"


def main() -> int:
    """Reads the command line, and shows the menus."""
    parser = argparse.ArgumentParser(description="A menu for a Kconfig and its .config, over kconf.")
    parser.add_argument("--kconf", metavar="PROGRAM", default="kconf", help="the program, if not kconf on the path")
    for option, word in (("--variables", "FILE"), ("--prefix", "P"), ("-C", "FOLDER")):
        parser.add_argument(option, metavar=word, help="as kconf takes it")
    parser.add_argument("kconfig", metavar="KCONFIG")
    parser.add_argument("config", metavar="CONFIG", help="what is loaded, and saved by s; - for none")
    parser.add_argument("variable", metavar="NAME=VALUE", nargs="*", default=[])
    given = parser.parse_intermixed_args()
    if not (sys.stdin.isatty() and sys.stdout.isatty()):
        parser.error("its input and output have to be a terminal")
    options = (("--variables", given.variables), ("--prefix", given.prefix), ("-C", given.C))
    words = [given.kconf, "--explain", *(word for option in options if option[1] is not None for word in option)]
    target = None if given.config == "-" else os.path.join(given.C or "", given.config)
    config = given.config if target and os.path.exists(target) else "-"
    with contextlib.suppress(locale.Error):  # Without the locale of the environment all but ASCII looks odd.
        locale.setlocale(locale.LC_ALL, "")
    os.environ.setdefault("ESCDELAY", "25")
    try:
        with tempfile.TemporaryDirectory() as room:
            session = Session(words, [given.kconfig, config, *given.variable], room)
            session.saved = None if target and config == "-" else session.config
            curses.wrapper(lambda window: Screen(window, session, target).run())
    except (Refused, OSError, curses.error, KeyboardInterrupt) as error:
        print(f"menuconfig.py: {str(error) or 'interrupted'}", file=sys.stderr)
        return 1
    return 0


if __name__ == "__main__":
    sys.exit(main())
