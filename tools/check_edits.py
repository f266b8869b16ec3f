#!/usr/bin/env python3
"""Checks that the edits can be read: that what they put in place names only what its file knows.

    tools/check_edits.py

The gate runs it, by tools/check_all.sh, since `rt ci` passes over an edit that it can't read. Nothing is compiled: the
names of what an edit puts in place, of the gate or outside it, are looked up in the code. A line is written for each
mistake, and the status is 1 where there is one:

- a function that is called and that the file neither defines nor imports, and that is no parameter or variable of it;
- a type, a module or a constant that the file neither defines nor imports nor names already;
- a path `Type::name` or `module::name` where the type or the module has no such name;
- a method, a field or a macro that no code of the crate or of those that it uses defines and no other code names;
- a variable that the file names nowhere and the edit does not make.

Of names of other libraries it knows that the code of the repository uses them. What has another type, or too few
arguments, is not found: `rt must-fail` reports it, and the gate, too (tools/bad_edits.py).
"""

import re
import sys
from dataclasses import dataclass, field
from functools import cached_property, lru_cache
from pathlib import Path
from typing import Dict, Iterable, Iterator, List, Optional, Set, Tuple

from check_rules import CRATES, ROOT, all_edits, crate_of, shown, text_of
from rattle_code import FREE_FUNCTION, bare, imported, items, variants

WORD = re.compile(r"(?<![\w'])[A-Za-z_]\w*")
LONGEST = 200  # no name is longer

KEYWORDS = set(
    "as async await break const continue crate dyn else enum extern false fn for if impl in let loop match mod move mut"
    " pub ref return self static struct super trait true type unsafe use where while _".split()
)
PRIMITIVES = set("bool char str u8 u16 u32 u64 u128 usize i8 i16 i32 i64 i128 isize f32 f64".split())
PRELUDE = set(
    "Self Some None Ok Err Option Result String Vec Box Iterator IntoIterator Extend Default Clone Copy Drop Eq From"
    " Into Fn FnMut FnOnce Ord PartialEq PartialOrd AsRef AsMut drop".split()
)
# Methods of std that an edit may call where no code does.
METHODS = set(
    "all allocator and_then any as_bytes as_mut as_ref as_slice as_str bytes chain chars checked_add"
    " checked_sub chunks clear clone cloned cmp contains copied count dedup default ends_with enumerate eq"
    " extend filter filter_map find first flat_map fold from from_str get get_mut insert into is_empty is_err"
    " is_none is_ok is_some is_some_and iter iter_mut last len map map_err map_or max min ne new next next_back"
    " ok ok_or or or_else partial_cmp peek pop position push push_str remove replace reserve rev rposition"
    " saturating_add saturating_sub skip sort split split_at split_once starts_with strip_prefix strip_suffix"
    " sum swap take to_string trim trim_end trim_start truncate unwrap_or unwrap_or_default unwrap_or_else"
    " windows wrapping_add wrapping_sub zip".split()
)


# ------------------------------------------------------------------------------------------------ code


@dataclass(frozen=True)
class Code:
    """Bare code of some files, with the names that stand in it as something."""

    text: str

    @cached_property
    def items(self) -> Set[str]:
        return items(self.text) | imported(self.text)

    @cached_property
    def functions(self) -> Set[str]:
        return set(re.findall(r"\bfn\s+(\w+)", self.text))

    @cached_property
    def free_functions(self) -> Set[str]:
        """Those that are called by their names alone."""
        return set(FREE_FUNCTION.findall(self.text)) | imported(self.text)

    @cached_property
    def methods_called(self) -> Set[str]:
        return set(re.findall(r"\.(\w+)\s*(?:::<[^()]*>)?\(", self.text))

    @cached_property
    def labels(self) -> Set[str]:
        """Fields of types and of values, parameters, and variables with a type."""
        return set(re.findall(r"\b(\w+)\s*:(?!:)", self.text))

    @cached_property
    def macros(self) -> Set[str]:
        return set(re.findall(r"\b(\w+)!", self.text))

    @cached_property
    def types(self) -> Set[str]:
        return set(re.findall(r"\b(?:struct|enum|trait|type)\s+(\w+)", self.text))

    @cached_property
    def paths(self) -> Set[Tuple[str, str]]:
        """Each pair of names with `::` between them."""
        return set(re.findall(r"\b(\w+)(?=::(\w+))", self.text))

    @cached_property
    def named(self) -> Set[str]:
        """What stands in it as a name of its own: not behind a dot or `::`."""
        return set(re.findall(r"(?<![\w'])(?<![^.]\.)(?<!::)([A-Za-z_]\w*)", self.text))

    @cached_property
    def bound(self) -> Set[str]:
        """Variables and parameters, of which a type of functions may be called."""
        in_closures = " ".join(re.findall(r"\|([^|\n]*)\|", self.text))
        return self.labels | set(re.findall(r"\b(?:let|mut)\s+(\w+)", self.text)) | set(re.findall(r"\w+", in_closures))


@lru_cache(maxsize=None)
def code_of(path: Path) -> Code:
    return Code(bare(text_of(path)))


def joined(codes: Iterable[Code]) -> Code:
    return Code("\n".join(code.text for code in codes))


@lru_cache(maxsize=None)
def below(crate: str) -> Tuple[str, ...]:
    """A crate and the crates of the repository that it uses."""
    line = re.search(rf"^{crate}\b[^:#\n]*:([^#\n]*)", text_of(ROOT / "crates.txt"), re.MULTILINE)
    used = line[1].split() if line else []
    return (crate, *(name for name in used if (CRATES / name).is_dir()))


@lru_cache(maxsize=None)
def code_of_crate(crate: str) -> Code:
    return joined(code_of(path) for path in sorted((CRATES / crate / "src").rglob("*.rt")))


@lru_cache(maxsize=None)
def code_below(crate: str) -> Code:
    return joined(code_of_crate(each) for each in below(crate))


@lru_cache(maxsize=None)
def all_code() -> Code:
    return joined(code_of_crate(path.name) for path in sorted(CRATES.iterdir()) if path.is_dir())


# ------------------------------------------------------------------------------------------------ what is put in place


@dataclass(frozen=True)
class Name:
    """A name in what an edit puts in place, with the code before and after it."""

    word: str
    before: str
    after: str

    @property
    def qualifier(self) -> str:
        """The name before `::`, if there is one. A type with arguments, as in `<A as B>::name`, is not named."""
        found = re.search(r"(\w+)(?:::<[^<>]*>)?\s*::\s*$", self.before) or self.around_in_use
        return found[1] if found else ""

    @property
    def around_in_use(self) -> "Optional[re.Match[str]]":
        """Where it is imported within braces, what is before these."""
        return re.search(r"\buse\s[^;]*?(\w+)::\{[^{};]*$", self.before)

    @property
    def is_in_path(self) -> bool:
        return re.search(r"::\s*$", self.before) is not None or self.around_in_use is not None

    @property
    def is_member(self) -> bool:
        return re.search(r"(?<!\.)\.\s*$", self.before) is not None

    @property
    def is_called(self) -> bool:
        return re.match(r"\s*(?:::<[^()]*>)?\(", self.after) is not None

    @property
    def is_macro(self) -> bool:
        return re.match(r"!\s*[(\[{]", self.after) is not None

    @property
    def kind(self) -> str:
        """What a name that is in no path is."""
        if self.is_member:
            return "method" if self.is_called else "field"
        if self.is_macro:
            return "macro"
        if self.word[0].isupper() or self.after.lstrip().startswith("::"):
            return "type, module or constant"
        return "function" if self.is_called else "variable"

    @property
    def is_label(self) -> bool:
        """Whether it is a field that gets a value, or a variable or parameter with its type."""
        return re.match(r"\s*:(?!:)", self.after) is not None


def names_in(code: str, start: int, end: int) -> Iterator[Name]:
    """The names of bare code that have a character from `start` to `end`."""
    for word in WORD.finditer(code, max(0, start - LONGEST)):
        if word.start() >= end:
            return
        if word.end() > start and word[0] not in KEYWORDS | PRIMITIVES:
            before = code[max(0, word.start() - LONGEST) : word.start()]
            yield Name(word[0], before, code[word.end() : word.end() + LONGEST])


@dataclass
class Edited:
    """A file that an edit changes, as it is after the edit, with what the edit puts in place, and the names in that."""

    path: str
    text: str
    made: List[str] = field(default_factory=list)
    names: List[Name] = field(default_factory=list)

    def change(self, old: str, new: str) -> None:
        start = self.text.find(old)
        self.text = self.text.replace(old, new, 1)
        code = bare(self.text)
        self.made.append(code[start : start + len(new)])
        self.names += names_in(code, start, start + len(new))


def edited(crate: str, edit: str) -> Iterator[Edited]:
    """The files of code of a crate that the text of an edit changes."""
    file, old = "", ""
    files: Dict[str, Edited] = {}
    for line in edit.split("\n"):
        word, _, rest = line.partition(":")
        if word == "file":
            file = rest.strip()
            files.setdefault(file, Edited(file, text_of(CRATES / crate / file)))
        elif word == "old":
            old = rest[1:]
        elif word == "new":
            files[file].change(old, rest[1:])
    yield from (each for each in files.values() if each.path.endswith(".rt"))


# ------------------------------------------------------------------------------------------------ looking up


@dataclass(frozen=True)
class Scope:
    """What a file that an edit changes knows: its code after the edit and before, and what the edit puts in place."""

    crate: str
    code: Code
    before: Code
    made: Code

    def knows_function(self, word: str) -> bool:
        known = self.code.free_functions | self.code.bound | self.made.functions
        return word in PRELUDE | known

    def knows_type(self, word: str) -> bool:
        return word in PRELUDE | self.code.items | self.before.named or word in ("std", "core", *below(self.crate))

    def knows_variable(self, word: str) -> bool:
        bound = (
            rf"\blet\b[^=;]*\b{word}\b[^=;]*=|\bfor\b[^;]*?\b{word}\b[^;]*?\bin\b|\b{word}\b[^;{{}}]*?=>"
            rf"|\bmatches!\([^;]*\b[A-Z]\w*\([^()]*\b{word}\b"
        )
        return word in self.before.named | self.made.bound or re.search(bound, self.made.text) is not None

    def knows_method(self, word: str) -> bool:
        return word in METHODS | code_below(self.crate).functions | self.made.functions | all_code().methods_called

    def knows_field(self, word: str) -> bool:
        return word in code_below(self.crate).labels | self.made.labels

    def knows_in_type(self, kind: str, word: str) -> bool:
        """Whether a type has a function, a constant or a variant of this name."""
        homes = [crate for crate in below(self.crate) if kind in code_of_crate(crate).types]
        if (kind, word) in all_code().paths or (kind != "Self" and not homes):
            return (kind, word) in all_code().paths or word in METHODS
        code = joined([self.made, *(code_of_crate(crate) for crate in homes or [self.crate])])
        return word in code.items or word in variants(code.text, kind)

    def knows_in_module(self, module: str, word: str) -> bool:
        """Whether a module of this crate, or another crate, has this name."""
        if word in self.made.items:
            return True
        if module in ("crate", "super", "self", *below(self.crate)):
            return word in code_of_crate(module if module in below(self.crate) else self.crate).items
        source = CRATES / self.crate / "src"
        own = [*source.rglob(f"{module}.rt"), *source.rglob(f"{module}/mod.rt")]
        return any(word in code_of(path).items for path in own) or (module, word) in all_code().paths

    def lacks_of_path(self, name: Name) -> str:
        """The same of a name behind `::`. Where its type is not known, that is said of the type."""
        qualifier = name.qualifier
        is_type = qualifier[:1].isupper()
        if not qualifier or is_type and not self.knows_type(qualifier):
            return ""
        look_up = self.knows_in_type if is_type else self.knows_in_module
        return "" if look_up(qualifier, name.word) else f"name in {qualifier}"

    def lacks(self, name: Name) -> str:
        """What a name should be and is not, or nothing."""
        if name.is_in_path:
            return self.lacks_of_path(name)
        kind = name.kind
        look_ups = {
            "method": self.knows_method,
            "field": self.knows_field,
            "macro": all_code().macros.__contains__,
            "type, module or constant": self.knows_type,
            "function": self.knows_function,
            "variable": self.knows_variable,
        }
        is_label = name.is_label and self.knows_field(name.word)
        return "" if is_label or look_ups[kind](name.word) else kind


def mistakes_of(crate: str, edit: str) -> Iterator[str]:
    """What the text of an edit of a crate names and its file does not know."""
    files = list(edited(crate, edit))
    made = Code("\n".join(text for after in files for text in after.made))
    for after in files:
        scope = Scope(crate, Code(bare(after.text)), code_of(CRATES / crate / after.path), made)
        found = {(kind, name.word): None for name in after.names for kind in [scope.lacks(name)] if kind}
        yield from (f"{after.path} knows no {kind} {word!r}" for kind, word in found)


def main() -> int:
    edits = all_edits()
    mistakes = [f"{shown(edit)}: {it}" for edit in edits for it in mistakes_of(crate_of(edit), text_of(edit))]
    print("\n".join(mistakes) if mistakes else f"{len(edits)} edits name what their files know")
    return 1 if mistakes else 0


if __name__ == "__main__":
    sys.exit(main())
