#!/usr/bin/env python3
"""Tests of tools/expand_kconfig.py.

Most of them are rows: the text of a Kconfig and what it is for kconf, as kconfig-macro-language.rst has it.
"""

import os
import shutil
import subprocess
import sys
import tempfile
import unittest
from pathlib import Path

TOOL = Path(__file__).resolve().parent / "expand_kconfig.py"

# A line, behind the lines of PRELUDE, and the line that is written for it.
PRELUDE = """\
comma := ,
empty :=
space := $(empty) $(empty)
success = $(if-success,$(1),y,n)
if-success = $(shell,{ $(1); } >/dev/null 2>&1 && echo "$(2)" || echo "$(3)")
pair = $(2)-$(1)
later = $(NAME)
now := $(NAME)
NAME := net
more := a
more += $(NAME)
slow = a
slow += $(late)
late := z
fresh += $(NAME)
call = $(pair,$(1),$(comma))
twice = $($(1))
same-word = y
"""
LINES = [
    ('default "$(NAME)"', 'default "net"'),  # a variable is put in place
    ('default "$(now)"', 'default ""'),  # `:=` expands at its line, where NAME has no value yet
    ('default "$(later)"', 'default "net"'),  # `=` expands at its use
    ('default "$(more)"', 'default "a net"'),  # `+=` behind `:=`
    ('default "$(slow)"', 'default "a z"'),  # `+=` behind `=` expands later
    ('default "$(fresh)"', 'default "net"'),  # `+=` of a new name is `=`
    ('default "$(pair,a,b)"', 'default "b-a"'),  # parameters
    ('default "$(pair, a, b)"', 'default " b- a"'),  # blanks in arguments are kept
    ('default "$(pair,a)"', 'default "-a"'),  # a parameter that is not given is empty
    ('default "$(pair,(a,b),c)"', 'default "c-(a,b)"'),  # commas in parentheses do not separate
    ('default "$(call,x)"', 'default ",-x"'),  # a comma that a variable gives does not separate
    ('default "$(twice,NAME)"', 'default "net"'),  # a computed name
    ('default "x$(space)y"', 'default "x y"'),
    ('default "$(nothing)"', 'default ""'),
    ("def_bool $(success,true)", "def_bool y"),
    ("def_bool $(success,false)", "def_bool n"),
    ("def_bool !$(success,false) && A", "def_bool ! n && A"),
    ('default "$(shell,echo hello$(comma) world)"', 'default "hello, world"'),
    ('default "$(shell,printf \'a\\nb\\n\\n\')"', 'default "a b"'),  # inner line ends are spaces
    ('default "$(shell,echo $ARCH)"', 'default "x86"'),  # a word in the environment of the command
    ('default "$(shell,echo \'a"b\')"', 'default "a\\"b"'),  # what is put in place is escaped
    ('default "$(lineno)"', 'default "19"'),
    ('default "$(filename)"', 'default "Kconfig"'),
    ('default "$(ARCH)"', 'default "$(ARCH)"'),  # a word NAME=VALUE stays
    ("default $(ARCH)", "default $(ARCH)"),
    ('default "$ARCH-${ARCH}"', 'default "$(ARCH)-$(ARCH)"'),
    ('default "\\$(ARCH)"', 'default "\\$(ARCH)"'),  # no reference
    ('prompt "costs $5"', 'prompt "costs \\$5"'),
    ("bool Network", 'bool "Network"'),
    ("menu Network", 'menu "Network"'),
    ("depends on A if B", "depends on ( A ) || ! ( B )"),
    ("depends on A && @B", "depends on A && B"),
    ('option env="ARCH"', 'default "$(ARCH)"'),
    ("option defconfig_list", ""),
    ("choice SPEED", "choice"),
    ("$(NAME)-x := 1", ""),  # a name with a reference
    ("x-$(NAME) := 1", ""),
    ("$(info,hello)", ""),
    ("depends on A = '$(NAME)'", 'depends on A = "net"'),
    ("default A # $(shell,false)", "default A # $(shell,false)"),
]
FAULTS = [
    "A = $(A)\nB := $(A)",  # a variable that its own expansion needs
    "f = $(f,$(1))\nB := $(f,x)",  # a function without end
    "$(error-if,y,no)",
    'default "$(shell,a,b)"',  # too many arguments
    'default "$(ARCH"',
    "source nowhere",
    'source "Kconfig"',
    "$(NAME) y",
    "default $(nothing)",  # a word without text
]


# A Kconfig, further words of the command line, and what standard error has, as a pattern. The variables that nobody gave
# are named in place of a shell's message, and no traceback shows.
CALLS = "".join(f"f{number} = $(f{number + 1},$(1))\n" for number in range(900))
NOT_GIVEN = [
    (
        "T = $(shell,$(srctree)/scripts/cc-version.sh)\nN := $(T)\n",
        (),
        r"^Kconfig:2: srctree is not given: pass srctree=VALUE \(in `.scripts/cc-version.sh`\)\n1 file, 1 command, 0 notes\n$",
    ),
    (
        "N := $(shell,$(CC) --version)\nM := $(shell,$(CC) --help)\n",
        (),
        r"^Kconfig:1: CC is not given: pass CC=VALUE \(in ` --version`\)\n1 file, 2 commands, 0 notes\n$",
    ),
    (
        "N := $(shell,echo no >&2; false $(FLAGS))\n",
        (),
        r"^Kconfig:1: FLAGS is not given: .*\nKconfig:1: `echo no >&2; false ` wrote: no\n",
    ),
    ("N := $(shell,echo no >&2)\n", (), r"^Kconfig:1: `echo no >&2` wrote: no\n"),
    (
        "source arch/$(SRCARCH)/Kconfig\n",
        (),
        r"^Kconfig:1: arch/Kconfig can't be read; SRCARCH is not given: pass SRCARCH=VALUE\n$",
    ),
    (
        "D := $(A)$(B)\nsource $(D)\n",
        (),
        r"^Kconfig:2: a word that expands to nothing; A and B are not given: pass A=VALUE B=VALUE\n$",
    ),
    ("N := $(FLAGS)\n$(error-if,y,Sorry.)\n", (), r"^Kconfig:2: Sorry\n$"),
    ("comment c\n", (), r"^Kconfig:1: c is put into quotes\n1 file, 0 commands, 1 note\n$"),
    (CALLS + "N := $(f0,x)\n", (), r"^Kconfig:901: an expansion nests too deeply\n$"),
    (
        "config NEW\n\tbool\n\tdefault OLD\nconfig OLD\n\tbool\n\ttransitional # since 6.18\n",
        (),
        r"^Kconfig:6: transitional is dropped: what a .config says of OLD has no effect: set NEW\n1 file, ",
    ),
    (
        "choice\n\tprompt 'c'\n\tdefault A if OLD\nendchoice\nconfig OLD\n\tbool\n\ttransitional\n",
        (),
        r"^Kconfig:7: transitional is dropped: what a .config says of OLD has no effect: set A\n1 file, ",
    ),
    ("comment c\n", ("--root", "/nowhere"), r"error: /nowhere is no folder\n$"),
    ("comment c\n", ("--variables", "/nowhere"), r"error: /nowhere can't be read: "),
    ("comment c\n", ("--words", "nowhere/words"), r"\nexpand_kconfig.py: .*No such file or directory: 'nowhere/words'\n$"),
    ("comment c\n", ("X",), r"error: a variable is given as NAME=VALUE, and not as 'X'\n$"),
]


def files_of(out: Path) -> dict[str, str]:
    """The texts of the files in a folder, but for the list of them."""
    files = (path for path in out.rglob("*") if path.is_file() and path.name != ".expanded")
    return {str(path.relative_to(out)): path.read_text() for path in files}


def run(files: dict[str, str], *words: str) -> tuple[int, dict[str, str], str, str]:
    """The status, the files that are written, standard output and standard error."""
    with tempfile.TemporaryDirectory() as folder:
        root, out = Path(folder, "tree"), Path(folder, "out")
        for path, text in files.items():
            (root / path).parent.mkdir(parents=True, exist_ok=True)
            (root / path).write_text(text)
        command = [sys.executable, TOOL, "--root", root, *words[:1], "Kconfig", out, "ARCH=x86", *words[1:]]
        done = subprocess.run([word for word in command if word], cwd=folder, capture_output=True, text=True)
        written = files_of(out)
        return done.returncode, written, done.stdout, done.stderr


class Expansion(unittest.TestCase):
    def test_lines(self) -> None:
        for line, wanted in LINES:
            with self.subTest(line):
                status, written, _, stderr = run({"Kconfig": PRELUDE + line + "\n"})
                self.assertEqual(status, 0, stderr)
                self.assertEqual(written["Kconfig"].split("\n")[-2], wanted)
                self.assertEqual(written["Kconfig"].count("\n"), PRELUDE.count("\n") + 1)

    def test_faults(self) -> None:
        for text in FAULTS:
            with self.subTest(text):
                status, written, _, stderr = run({"Kconfig": text + "\n"})
                self.assertEqual((status, written), (1, {}))
                self.assertRegex(stderr, r"^Kconfig:[12]: ")

    def test_help_texts_and_unchanged_lines_are_copied(self) -> None:
        text = "config A\n\tbool 'a'   if  B\n\thelp\n\t  $(shell,date) source x\n\n\t  more\n\tdefault y\\\n\t if B\n"
        _, written, _, _ = run({"Kconfig": text})
        self.assertIn("\thelp\n\t  $(shell,date) source x\n\n\t  more\n", written["Kconfig"])
        self.assertEqual(written["Kconfig"].count("\n"), text.count("\n"))

    def test_sources(self) -> None:
        files = {
            "Kconfig": 'D := d\nsource $(D)/Kconfig\nosource "none"\nsource "$(ARCH)/*.k"\n',
            "d/Kconfig": 'rsource "x"\n',
            "d/x": "comment c\n",
            "x86/a.k": "",
            "x86/b.k": "",
        }
        status, written, stdout, stderr = run(files)
        self.assertEqual(status, 0, stderr)
        self.assertEqual(written["Kconfig"], '\nsource "d/Kconfig"\n\nsource "Kconfig.sources"\n')
        self.assertEqual(written["Kconfig.sources"], 'source "x86/a.k"\nsource "x86/b.k"\n')
        self.assertEqual((written["d/Kconfig"], written["d/x"]), ('source "d/x"\n', 'comment "c"\n'))
        self.assertEqual(stdout, "\n")

    def test_a_file_that_differs_where_it_is_sourced_again(self) -> None:
        files = {"Kconfig": 'N := a\nsource "f"\nN := b\nsource "f"\nsource "f"\n', "f": 'comment "$(N)"\n'}
        _, written, _, _ = run(files)
        self.assertEqual(written["Kconfig"], '\nsource "f"\n\nsource "f.2"\nsource "f.2"\n')
        self.assertEqual((written["f"], written["f.2"]), ('comment "a"\n', 'comment "b"\n'))

    def test_words_that_kconf_needs(self) -> None:
        files = {"Kconfig": 'source "$(ARCH)/k"\n# $(OTHER)\n', "x86/k": ""}
        self.assertEqual(run(files, "", "OTHER=1")[2], "ARCH=x86\n")
        status, written, stdout, _ = run(files, "--expand")
        self.assertEqual((status, written["Kconfig"], stdout), (0, 'source "x86/k"\n# $(OTHER)\n', "\n"))

    def test_what_is_not_given_is_named(self) -> None:
        for text, words, wanted in NOT_GIVEN:
            with self.subTest(text[:60], words=words):
                _, _, _, stderr = run({"Kconfig": text}, "", *words)
                self.assertRegex(stderr, wanted)
                self.assertNotIn("Traceback", stderr)

    def test_no_variable_is_needed(self) -> None:
        with tempfile.TemporaryDirectory() as folder:
            Path(folder, "Kconfig").write_text("comment c\n")
            done = subprocess.run([sys.executable, TOOL, "Kconfig", "out"], cwd=folder, capture_output=True, text=True)
            self.assertEqual((done.returncode, done.stdout), (0, "\n"))
            done = subprocess.run([sys.executable, TOOL], cwd=folder, capture_output=True, text=True)
            self.assertRegex(done.stderr, r"error: the following arguments are required: KCONFIG, OUT\n$")

    def test_variables_and_words_in_files(self) -> None:
        with tempfile.TemporaryDirectory() as folder:
            Path(folder, "Kconfig").write_text('comment "$(A) $(B) $(C)"\n')
            Path(folder, "variables").write_text("# given\n\n \t\nA=x y\r\nB=1\n")
            command = [sys.executable, TOOL, "--variables", "variables", "--words", "words", "Kconfig", "out", "B=2"]
            done = subprocess.run(command, cwd=folder, capture_output=True, text=True)
            self.assertEqual((done.returncode, done.stdout), (0, ""), done.stderr)
            self.assertEqual(Path(folder, "words").read_text(), "A=x y\nB=2\n")
            self.assertEqual(Path(folder, "out", "Kconfig").read_text(), 'comment "$(A) $(B) "\n')
            command = [sys.executable, TOOL, "--words", "words", "Kconfig", "out2", "A=x\ny"]
            done = subprocess.run(command, cwd=folder, capture_output=True, text=True)
            self.assertEqual(done.returncode, 1)
            self.assertRegex(done.stderr, r"\nexpand_kconfig.py: A has a line end, which --words can't write\n$")

    @unittest.skipIf(shutil.which("make") is None, "make is not there")
    def test_the_words_of_a_makefile(self) -> None:
        makefile = "export ARCH := arm\nexport UNUSED := 1\n%config:\n\t$(MAKE) -f sub.mk obj=scripts/kconfig $@\n"
        with tempfile.TemporaryDirectory() as folder:
            Path(folder, "Makefile").write_text(makefile)
            Path(folder, "sub.mk").write_text("%config:\n\tfalse\n")
            Path(folder, "Kconfig").write_text('source "arch/$(ARCH)/Kconfig"\n\tdefault "$(CC) $HOST_NAME"\n')
            words = {"MAKEFILES": str(TOOL.parent / "kconfig_words.mk"), "CC": "gcc -m32", "PATH": os.environ["PATH"]}
            command = ["make", "-s", "kconfwordsconfig"]
            done = subprocess.run(command, cwd=folder, env=words, capture_output=True, text=True)
            self.assertEqual((done.returncode, done.stdout), (0, "ARCH=arm\nCC=gcc -m32\n"), done.stderr)

    def test_a_choice_with_tristate_members(self) -> None:
        text = 'choice\n\tprompt "c"\n\tdepends on A\n\tdefault X\nconfig X\n\ttristate "x"\nendchoice\n'
        _, written, _, stderr = run({"Kconfig": text})
        self.assertEqual(written["Kconfig"], 'if (A)\n\n\n\nconfig X\n\ttristate "x"\nendif\n')
        self.assertRegex(stderr, r"^Kconfig:1: a choice with tristate members")

    def test_def_int_is_two_lines(self) -> None:
        _, written, _, _ = run({"Kconfig": "config N\n\tdef_int 5 if A\n"})
        self.assertEqual(written["Kconfig"], "config N\n\tint\n\tdefault 5 if A\n")

    def test_a_defconfig_list_has_no_defaults(self) -> None:
        text = 'config L\n\tstring\n\tdefault "a"\n\toption defconfig_list\n\tdefault "b"\nchoice\n\tdefault "c"\n'
        _, written, _, _ = run({"Kconfig": text + 'config M\n\tdefault "d"\n'})
        wanted = 'config L\n\tstring\n\n\n\nchoice\n\tdefault "c"\nconfig M\n\tdefault "d"\n'
        self.assertEqual(written["Kconfig"], wanted)

    def test_an_empty_number_counts_zero_where_conf_says_so(self) -> None:
        text = "config A\n\tint\n\tdefault 1 if B = 0 || !C!=0x0\n\trange 0 D if D >= 0\n"
        zero = '( B = 0 || B = "" ) || ! ( C != 0x0 && C != "" )'
        for folder in ("scripts", "tools"):
            source = {f"{folder}/kconfig/symbol.c": 'newval.val = "0";\n'}
            _, written, _, stderr = run({"Kconfig": text, **source})
            self.assertEqual(written["Kconfig"], text.replace("B = 0 || !C!=0x0", zero))
            self.assertRegex(stderr, r"^Kconfig:3: B without a value counts 0, as in the conf of this tree\nKconfig:3: C ")
        _, written, _, _ = run({"Kconfig": text, "scripts/kconfig/symbol.c": ""})
        self.assertEqual(written["Kconfig"], text)

    def test_the_prompt_of_a_choice_is_open_where_conf_says_so(self) -> None:
        head = 'choice\n\tprompt "c" if A\n\thelp\n\t  prompt "c" if A\n\tdefault X if A\n'
        text = head + 'config X\n\tbool "x" if B\nendchoice\nconfig Y\n\tbool "y" if A\n'
        source = {"scripts/kconfig/symbol.c": "struct symbol *sym_calc_choice(struct menu *choice)\n"}
        _, written, _, stderr = run({"Kconfig": text, **source})
        self.assertEqual(written["Kconfig"], text.replace('\tprompt "c" if A\n', '\tprompt "c"\n', 1))
        self.assertRegex(stderr, r"^Kconfig:2: the condition of a choice's prompt is dropped, .*: A\n1 file")
        _, written, _, _ = run({"Kconfig": text})
        self.assertEqual(written["Kconfig"], text)

    def test_transitional_is_dropped(self) -> None:
        text = "config A\n\tbool\n\ttransitional\n\thelp\n\t  transitional\nconfig transitional\n\tbool\n"
        status, written, _, stderr = run({"Kconfig": text})
        self.assertEqual(status, 0, stderr)
        self.assertEqual(written["Kconfig"], text.replace("\ttransitional\n\thelp", "\n\thelp"))


class Output(unittest.TestCase):
    """What is in OUT after several runs, and the rule for make."""

    def setUp(self) -> None:
        room = tempfile.TemporaryDirectory()
        self.addCleanup(room.cleanup)
        self.folder = Path(room.name)
        self.write("Kconfig", 'source "$(D)/k"\n')
        self.write("a/k", 'comment "a"\n')
        self.write("b c/k", 'comment "b"\n')

    def write(self, path: str, text: str) -> None:
        (self.folder / path).parent.mkdir(exist_ok=True)
        (self.folder / path).write_text(text)

    def expand(self, *words: str) -> subprocess.CompletedProcess:
        command = [sys.executable, TOOL, "--words", "words", "Kconfig", "out", *words]
        return subprocess.run(command, cwd=self.folder, capture_output=True, text=True)

    def make_old(self) -> None:
        for path in (self.folder / "out").rglob("*"):
            os.utime(path, (1000000000, 1000000000))

    def changed(self) -> set[str]:
        """The files of OUT that were written since make_old."""
        out = self.folder / "out"
        new = (path for path in out.rglob("*") if path.is_file() and path.stat().st_mtime > 1000000000)
        return {str(path.relative_to(out)) for path in new}

    def test_a_second_run_keeps_what_is_the_same(self) -> None:
        self.assertEqual(self.expand("D=a").returncode, 0)
        self.make_old()
        self.assertEqual(self.expand("D=a").returncode, 0)
        self.assertEqual(self.changed(), {".expanded"})
        self.write("a/k", 'comment "other"\n')
        self.assertEqual(self.expand("D=a").returncode, 0)
        self.assertEqual(self.changed(), {".expanded", "a/k"})
        self.assertEqual(files_of(self.folder / "out")["a/k"], 'comment "other"\n')

    def test_a_second_run_removes_what_it_does_not_write(self) -> None:
        self.expand("D=a")
        self.write("out/own", "")
        self.assertEqual(self.expand("D=b c").returncode, 0)
        self.assertEqual(sorted(files_of(self.folder / "out")), ["Kconfig", "b c/k", "own"])

    def test_a_mistake_leaves_what_is_there(self) -> None:
        self.expand("D=a")
        before = files_of(self.folder / "out")
        self.assertEqual(self.expand("D=none").returncode, 1)
        self.assertEqual(files_of(self.folder / "out"), before)

    def test_a_folder_of_other_files_is_refused(self) -> None:
        self.write("out/own", "")
        done = self.expand("D=a")
        self.assertEqual((done.returncode, files_of(self.folder / "out")), (2, {"own": ""}))
        self.assertRegex(done.stderr, r"error: out is there, and is neither an empty folder nor one that an earlier run")

    @unittest.skipIf(shutil.which("make") is None, "make is not there")
    def test_the_rule_for_make(self) -> None:
        self.write("variables", "D=b c\n")
        self.assertEqual(self.expand("--variables", "variables", "--depends", "out.d").returncode, 0)
        self.write("Makefile", "all: out/.expanded\nout/.expanded:\n\t@echo expand; touch $@\n-include out.d\n")
        self.assertEqual(self.make(), "")
        for path in ("Kconfig", "b c/k", "variables"):
            os.utime(self.folder / path, (4000000000, 4000000000))
            self.assertEqual(self.make(), "expand\n", path)
            os.utime(self.folder / path, (1000000000, 1000000000))
        (self.folder / "b c/k").unlink()
        self.assertEqual(self.make(), "expand\n")

    def make(self) -> str:
        """What make prints, without its warnings of a time in the future."""
        done = subprocess.run(["make", "-s", "all"], cwd=self.folder, capture_output=True, text=True)
        self.assertEqual(done.returncode, 0, done.stderr)
        return done.stdout


if __name__ == "__main__":
    unittest.main()
