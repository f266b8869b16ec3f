"""What the fuzzer checks of the targets that report: `genmake`, `files`, `why`, `check`, `merge` and `menu`. fuzz_how.py has
what it checks of `how`.

The forms are those of docs/COMMANDS.md, docs/ERRORS.md (the findings), docs/VALUES.md (the reasons), docs/FILES.md (the
values for make) and docs/PROTOCOL.md (the fields of `menu`).
"""

import json
import posixpath
import re
from dataclasses import dataclass
from typing import Any, Dict, Iterator, List, Optional, Tuple


@dataclass
class Run:
    """What the program was given, and what it did."""

    target: str
    prefix: bytes = b"CONFIG_"
    is_explained: bool = False
    words: Tuple[bytes, ...] = ()
    texts: Optional[Dict[bytes, bytes]] = None  # of the Kconfig and its files, by their paths
    config: Optional[bytes] = None
    stream: bytes = b""
    signal: int = 0
    is_hung: bool = False
    status: int = 0
    output: bytes = b""
    errors: bytes = b""
    options: Tuple[bytes, ...] = ()
    operands: Tuple[bytes, ...] = ()  # the names of `why`, the paths of the fragments of `merge` and `how`
    fragments: Optional[Dict[bytes, bytes]] = None

    def is_in_words(self) -> bool:
        """Whether warnings and errors have words."""
        return self.is_explained or self.target in IN_WORDS


# The targets whose warnings and errors have words without --explain.
IN_WORDS = ("genmake", "files", "why", "check", "merge", "how", "menu")

# What is asked of a Kconfig without a symbol.
EXCHANGED = re.compile(rb"kconf: .*: defines no symbol: is it a \.config\?", re.DOTALL)
KINDS = rb"(?:bool|tristate|string|int|hex)"
AT = rb".+:\d+"

# The first line of `why`, and what is said after two blanks in the next.
HEAD = re.compile(rb"(\w+) = (.*) \((" + KINDS + rb"), visible ([nmy]), user (.*)\)", re.DOTALL)
REASON = re.compile(
    rb"  (?:by default|because (?:of the user value(?:, as far as its prompt is visible)?"
    rb"|the user value .* is outside the range .*|its (?:empty )?default .*is past the range .*"
    rb"|it is (?:selected|implied)|its choice selects (?:it|\w+|none of its members)"
    rb"|its choice is optional, and no member is chosen|its dependencies are n|nothing gives it a value))"
    rb"(?:: m is y without MODULES)?",
    re.DOTALL,
)

# A finding: its place, or the name of a variable; and its words.
PLACED = re.compile(rb"(.+?):(\d+): (.*)", re.DOTALL)
COUNT_OF_FINDINGS = re.compile(
    rb"(no findings|1 finding|\d+ findings)(?: in config, (none|\d+) in the tree)?"
    rb"(?:, (?:1 undefined name \(--undefined lists it\)|\d+ undefined names \(--undefined lists them\)))?"
)
UNUSABLE = (
    rb"the line is not UTF-8|a mark of a conflict between two versions|not a line of a \.config"
    rb"|.+ in column \d+ is not allowed(?:; leave it out| in a name, which has ASCII letters, digits and _ alone)"
    rb"|no name is (?:before `=`|after .*)|blanks (?:around `=`|before the name|after `=`)(?:; write .+)?"
    rb"|the name does not begin with \w+(?:; write .+)?|a comment has a line of its own; write .+"
    rb"|no symbol has this name(?:; did you mean \w+\?)?|it is an? " + KINDS + rb" \(" + AT + rb"\), which takes .+"
    rb"|it is a string \(" + AT + rb"\)(?:, and no `\"` ends its text)?(?:; write .*)?"
)
FINDING = re.compile(
    rb"(?:\w+: )?(?:undefined: .+ \((?:always n|a text)\)(?:; did you mean \w+\?)?"
    rb"|undefined: (?:select|imply) .+ has no effect(?:; did you mean \w+\?)?"
    rb"|(?:select|imply) \w+ has no effect: \w+ is a member of a choice|defines no symbol: is it a \.config\?"
    rb"|.+ is an? (?:string|int|hex), which is always n as a condition(?:; did you mean \w+\?)?"
    rb"|a comment, which sets nothing; write # .* is not set|`\\.` is read as `.`; write `\\\\` for a backslash"
    rb"|default .* of a (?:bool|tristate) is n(?:; write [nmy])?|default .* is outside the range .*"
    rb"|range .*: its low bound is above its high bound|default .* is never used: (?:the one of .+ has no condition|its choice is never visible)"
    rb"|selected by \w+ \(" + AT + rb"\), while .+ is [nm]|.* is outside the range .*; its value is .*"
    rb"|.* has no effect: .+|[nmy] gives [nmy]: .+|.*takes the place of .+"
    rb"|[A-Za-z0-9_-]+: (?:not given, and no line defines it|defined, and used nowhere)"
    rb"|a tristate is never m: no line defines MODULES"
    rb"|always n: it has no prompt and no default, and no line selects or implies it|.+ is sourced in " + AT + rb", too"
    rb"|" + UNUSABLE + rb")",
    re.DOTALL,
)
UNUSED_VARIABLE = re.compile(rb"[A-Za-z0-9_][A-Za-z0-9_-]*: given, and used nowhere")

# The lines of `merge`.
COUNTS = re.compile(
    rb"(\d+) asked: (\d+) got, (\d+) got another value(?: \(see kconf how\))?, (\d+) unusable, (\d+) replaced"
    rb"(?:; (\d+) lines? of (.*) lost)?"
)
REPLACED = re.compile(rb"\w+: .* takes the place of .* \(" + AT + rb"\)", re.DOTALL)
WITHOUT_EFFECT = re.compile(rb"\w+: asked .*, got .*: .+", re.DOTALL)
UNUSABLE_IN_MERGE = re.compile(rb"(?:\w+: )?(?:" + UNUSABLE + rb")", re.DOTALL)
LOST = re.compile(rb"\w+: was .*, is .*: .+", re.DOTALL)

# The fields of `menu` by the kind of the object: those that it has to have, and those that it may.
EACH = ("id", "parent", "kind", "at", "shown")
FIELDS = {
    "menu": ((*EACH, "prompt"), ("depends", "visible_if")),
    "comment": ((*EACH, "prompt"), ("depends",)),
    "choice": (
        (*EACH, "prompt", "members", "mode", "sel", "user"),
        ("depends", "prompt_if", "help", "optional"),
    ),
    "config": (
        (*EACH, "name", "type", "vis", "value", "user"),
        ("prompt", "depends", "again", "prompt_if", "defaults", "ranges", "selects", "implies", "can", "range", "help"),
    ),
}
FIELDS["menuconfig"] = FIELDS["config"]
TRISTATES = ("n", "m", "y")


def lines_of(text: bytes) -> List[bytes]:
    """The lines of a text of which each has its end."""
    return text.split(b"\n")[:-1]


def report_problems(run: Run) -> Iterator[str]:
    """What is wrong with the output of a target that reports, but `merge`, which writes a `.config`."""
    if run.output and not run.output.endswith(b"\n"):
        yield "a line of standard output without its end"
    if any(b"\n" in word for word in run.words):
        return  # texts with line feeds come by variables alone, and make lines of any form
    checks = {
        "genmake": make_problems,
        "files": path_problems,
        "why": why_problems,
        "check": check_problems,
        "menu": menu_problems,
    }
    yield from checks[run.target](run)


def make_problems(run: Run) -> Iterator[str]:
    """What is wrong with the values for make: each line has a name and a value."""
    form = re.compile(run.prefix + rb"\w+=.*", re.DOTALL)
    names = [line.split(b"=")[0] for line in lines_of(run.output)]
    for line in lines_of(run.output):
        if not form.fullmatch(line):
            yield f"a line for make that has no known form: {line!r}"
    if len(set(names)) != len(names):
        yield "a name that make is given twice"


def path_problems(run: Run) -> Iterator[str]:
    """What is wrong with the paths: each is of a file that is there, once, and the first is the Kconfig."""
    paths = lines_of(run.output)
    if paths[:1] != [b"Kconfig"] or len(set(paths)) != len(paths):
        yield "paths that do not begin with the Kconfig, or one that is there twice"
    for path in paths:
        is_outside = path.startswith(b"/") or b".." in path.split(b"/")
        if run.texts is not None and not is_outside and posixpath.normpath(path) not in (*run.texts, b"config"):
            yield f"a path of no file: {path!r}"


# ------------------------------------------------------------------------------------------------ why


def why_problems(run: Run) -> Iterator[str]:
    """What is wrong with the reasons: there is a block for each name, and its lines have their forms."""
    blocks = blocks_of(run.output)
    if len(blocks) != len(run.operands):
        yield f"{len(blocks)} blocks for {len(run.operands)} names"
        return
    for name, block in zip(run.operands, blocks):
        head = HEAD.fullmatch(block[0])
        if not head or name not in (head[1], run.prefix + head[1]):
            yield f"a first line of {name!r} that has no known form: {block[0]!r}"
        if len(block) < 3 or not REASON.fullmatch(block[1]):
            yield f"a reason of {name!r} that has no known form: {block[1:2]!r}"
        if not all(line.startswith(b"  ") and line.strip(b" ") for line in block[1:]):
            yield f"a line about {name!r} that has no known form"


def blocks_of(output: bytes) -> List[List[bytes]]:
    """The lines of each block of `why`: an empty line is between two."""
    blocks: List[List[bytes]] = [[]]
    for line in lines_of(output):
        if line:
            blocks[-1].append(line)
        else:
            blocks.append([])
    return [block or [b""] for block in blocks]


# ------------------------------------------------------------------------------------------------ check


def check_problems(run: Run) -> Iterator[str]:
    """What is wrong with the findings: their forms, places and order, their number, and the status."""
    *findings, last = lines_of(run.output) or [b""]
    count = COUNT_OF_FINDINGS.fullmatch(last)
    if not count:
        yield f"a last line of the findings that has no known form: {last!r}"
        return
    of_config = sum(line.startswith(b"config:") for line in findings) if run.config is not None else 0
    in_tree = len(findings) - of_config
    first = of_config if count[2] else in_tree
    if count[1] != {0: b"no findings", 1: b"1 finding"}.get(first, b"%d findings" % first):
        yield f"{first} findings, and a last line {last!r}"
    if count[2] and count[2] != (b"%d" % in_tree if in_tree else b"none") or of_config and not count[2]:
        yield f"{in_tree} findings in the tree, and a last line {last!r}"
    judged = of_config if run.config is not None and b"--tree" not in run.options else len(findings)
    if run.status != (1 if judged and b"--strict" in run.options else 0):
        yield f"status {run.status} with {len(findings)} findings"
    yield from finding_problems(run, findings)


def finding_problems(run: Run, findings: List[bytes]) -> Iterator[str]:
    """What is wrong with findings: first come those of CONFIG, then those of the Kconfig, then those of variables."""
    if len(set(findings)) != len(findings):
        yield "a finding that is there twice"
    ranks: List[Tuple[int, int]] = []
    for line in findings:
        placed = PLACED.fullmatch(line)
        if UNUSED_VARIABLE.fullmatch(line):
            ranks.append((2, 0))
        elif placed and FINDING.fullmatch(placed[3]):
            is_config = placed[1] == b"config" and run.config is not None
            ranks.append((0, int(placed[2])) if is_config else (1, 0))
            yield from line_problems(run, placed[1], int(placed[2]))
        else:
            yield f"a finding that has no known form: {line!r}"
    if ranks != sorted(ranks):
        yield "findings that are not in their order"


def line_problems(run: Run, path: bytes, number: int) -> Iterator[str]:
    """What is wrong with the place of a line that is reported: it is a line of a file that was given."""
    texts = {**(run.texts or {}), **(run.fragments or {})}
    if run.config is not None:
        texts[b"config"] = run.config
    if run.texts is None or b"\n".join(texts).count(b":"):
        return
    text = texts.get(posixpath.normpath(path))
    is_outside = path.startswith(b"/") or b".." in path.split(b"/")
    if not is_outside and (text is None or not 1 <= number <= text.count(b"\n") + 1):
        yield f"a line that is not there: {path!r} {number}"


# ------------------------------------------------------------------------------------------------ merge


def is_merge_report(run: Run) -> bool:
    """Whether standard error has the report of `merge`, and not a fault."""
    lines = lines_of(run.errors)
    return run.target == "merge" and bool(lines) and COUNTS.fullmatch(lines[-1]) is not None


def merge_problems(run: Run) -> Iterator[str]:
    """What is wrong with the report of `merge`: the forms and the order of its lines, its numbers, and the status."""
    *lines, last = (line for line in lines_of(run.errors) if not EXCHANGED.fullmatch(line))
    counts = COUNTS.fullmatch(last)
    assert counts, "a report has counts"
    asked, got, other, unusable, replaced, lost = (int(counts[at] or 0) for at in range(1, 7))
    if asked != got + other + unusable + replaced:
        yield f"numbers that do not add up: {last!r}"
    if any(b"\n" in word for word in run.words):
        return
    kinds = [kind_of_merged(run, line) for line in lines]
    if "no known form" in kinds:
        yield f"a line of the report that has no known form: {lines[kinds.index('no known form')]!r}"
    found = tuple(kinds.count(kind) for kind in ("other", "unusable", "lost"))
    if found != (other, unusable, lost) or kinds.count("replaced") > replaced:
        yield f"lines {found} of the report, and the numbers {last!r}"
    if "lost" in kinds and set(kinds[kinds.index("lost") :]) != {"lost"}:
        yield "a line of a fragment after those of CONFIG"
    if run.status != (1 if other + unusable and b"--strict" in run.options else 0):
        yield f"status {run.status}, and the numbers {last!r}"
    for placed in filter(None, map(PLACED.fullmatch, lines)):
        yield from line_problems(run, placed[1], int(placed[2]))


def kind_of_merged(run: Run, line: bytes) -> str:
    """What a line of the report says."""
    placed = PLACED.fullmatch(line)
    if placed and placed[1] == b"config" and LOST.fullmatch(placed[3]):
        return "lost"
    if placed and placed[1] in run.operands:
        forms = (("other", WITHOUT_EFFECT), ("unusable", UNUSABLE_IN_MERGE), ("replaced", REPLACED))
        return next((kind for kind, form in forms if form.fullmatch(placed[3])), "no known form")
    return "no known form"


# ------------------------------------------------------------------------------------------------ menu


def menu_problems(run: Run) -> Iterator[str]:
    """What is wrong with the objects of `menu`: their fields, and that each is inside one before it."""
    blocks = {0}
    last = 0
    for line in lines_of(run.output):
        row = object_of(line)
        if row is None:
            yield f"a line that is no JSON object: {line[:200]!r}"
            return
        problem = problem_of_fields(row)
        if problem:
            yield f"{problem}: {line[:200]!r}"
            return
        if row["id"] <= last or row["parent"] not in blocks:
            yield f"an object that is not in its order, or whose parent is not before it: {line[:200]!r}"
        last = row["id"]
        if row["kind"] in ("menu", "choice"):
            blocks.add(last)


def object_of(line: bytes) -> Optional[Dict[str, Any]]:
    """The object of a line, of which each field is there once."""
    try:
        row = json.loads(line.decode(), object_pairs_hook=dict_of)
    except ValueError:
        return None
    return row if isinstance(row, dict) else None


def dict_of(pairs: List[Tuple[str, Any]]) -> Dict[str, Any]:
    fields = dict(pairs)
    if len(fields) != len(pairs):
        raise ValueError("a field that is there twice")
    return fields


def problem_of_fields(row: Dict[str, Any]) -> Optional[str]:
    """What is wrong with the fields of an object."""
    required, others = FIELDS.get(row.get("kind", ""), ((), ()))
    if not required:
        return "an object of no known kind"
    missing = [name for name in required if name not in row]
    unknown = [name for name in row if name not in (*required, *others)]
    if missing or unknown:
        return f"fields that are missing {missing}, or unknown {unknown}"
    numbers = (row["id"], row["parent"])
    tristates = [row[name] for name in ("shown", "vis", "mode") if name in row]
    if not all(isinstance(number, int) for number in numbers) or not all(it in TRISTATES for it in tristates):
        return "a field of another type"
    if ("can" in row) != (row.get("type") in ("bool", "tristate")):
        return "a list of values of a symbol that has none, or none of one that has"
    return None
