"""What the fuzzer compares of a run: what other targets, or a session, give on the same tree."""

import json
import re
from dataclasses import replace
from typing import Callable, Dict, Iterator, List, Optional, Tuple

from fuzz_checks import NO_SYMBOL, has_fault, parts_of_errors, replies_of
from fuzz_how import is_how_report
from fuzz_plans import Plan
from fuzz_reports import HEAD, Run, blocks_of, is_merge_report, lines_of, object_of

# Runs a plan, and gives the run with what is wrong with it by itself.
Again = Callable[[Plan], Tuple[Run, Optional[str]]]

NUMBER_WARNING = re.compile(rb"kconf: config:(\d+): warning 2(?:: .*)?")
UNQUOTED = re.compile(rb"\w+=(?!\").*", re.DOTALL)
LISTED = re.compile(rb"(\w+) type=(\w+) value=(.*) vis=([nmy]) can=([nmy,-]+) user=(.*)", re.DOTALL)


def problem_beside_others(again: Again, plan: Plan, run: Run) -> Optional[str]:
    """What is wrong with a run beside other runs on the same tree."""
    if not plan.compares or run.status == 2:
        return None
    if plan.target in ("genmake", "files", "check", "menu", "why") and (has_fault(run) or plan.target == "check"):
        return problem_of_fault(again, plan, run)
    if any(b"\n" in word for word in run.words):
        return None  # texts with line feeds, which come by variables alone, can be any lines
    if plan.target == "merge" and is_merge_report(run):
        return problem_of_merge(again, plan, run)
    if is_how_report(run) and run.output:
        return problem_of_how(again, plan, run)
    if run.status:
        return None
    compared = {
        "olddefconfig": problem_of_config,
        "savedefconfig": problem_of_default_file,
        "genmake": problem_of_make,
        "why": problem_of_why,
        "menu": problem_of_menu,
    }
    return compared[plan.target](again, plan, run) if plan.target in compared else None


def problem_of_config(again: Again, plan: Plan, run: Run) -> Optional[str]:
    """What is wrong with a `.config`: loaded again, and beside that of a session."""
    return problem_of_reload(again, plan, run) or problem_of_session(again, plan, run)


def problem_of_reload(again: Again, plan: Plan, run: Run) -> Optional[str]:
    """What is wrong with the `.config` that was written, loaded again."""
    second, problem = again(replace(plan, given=replace(plan.given, config=run.output), has_config=True))
    lines = run.output.split(b"\n")
    for warning in second.errors.split(b"\n")[:-1]:
        found = NUMBER_WARNING.fullmatch(warning)
        if problem is None and not (found and UNQUOTED.fullmatch(lines[int(found[1]) - 1])):
            problem = f"{warning!r}"
    return problem and f"the .config, loaded again: {problem}"


def problem_of_session(again: Again, plan: Plan, run: Run) -> Optional[str]:
    """What is wrong with the `config` of a session beside the text of the target."""
    plan = replace(plan, target="session", given=replace(plan.given, stream=b"config\n"))
    second, problem = again(plan)
    if problem is None and second.output != run.output + b"ok\n":
        problem = "another text"
    return problem and f"the config of a session: {problem}"


def problem_of_default_file(again: Again, plan: Plan, run: Run) -> Optional[str]:
    """What is wrong with the default file: it gives the same `.config` as what it was made from."""
    first, problem = again(replace(plan, target="olddefconfig"))
    if problem is None:
        given = replace(plan.given, config=run.output)
        second, problem = again(replace(plan, target="olddefconfig", given=given, has_config=True))
        if problem is None and second.errors:
            problem = "warnings"
        elif problem is None and second.output != first.output:
            problem = "other values"
    return problem and f"the default file, loaded: {problem}"


# ------------------------------------------------------------------------------------------------ targets that report


def problem_of_fault(again: Again, plan: Plan, run: Run) -> Optional[str]:
    """What is wrong with the first error, or with none: it is that of `olddefconfig`."""
    given = replace(plan, target="olddefconfig", options=(), names=(), fragments=())
    other, problem = again(replace(given, has_config=plan.has_config and plan.target != "files"))
    if problem:
        return f"olddefconfig: {problem}"
    found, wanted = parts_of_errors(run)[1][:1], parts_of_errors(other)[1][:1]
    if plan.target == "why" and found and NO_SYMBOL.fullmatch(found[0]):
        found = []
    return None if found == wanted else f"the first error is {found!r}, and that of olddefconfig {wanted!r}"


def problem_of_merge(again: Again, plan: Plan, run: Run) -> Optional[str]:
    """What is wrong with what `merge` writes: a session gives the same text after the same loads."""
    bodies = [(b"load", plan.given.config)] if plan.has_config else []
    bodies += [(b"merge", text) for text in plan.fragments]
    stream = b"".join(load_command(word, text) for word, text in bodies) + b"config\n"
    given = replace(plan.given, stream=stream)
    session = replace(plan, target="session", given=given, has_config=False, options=(), fragments=())
    other, problem = again(session)
    if problem:
        return f"a session with the same loads: {problem}"
    replies = list(replies_of(other.output))
    if len(replies) != len(bodies) + 1 or any(last != b"ok" for _, last in replies):
        return "a session refuses what merge loads"
    return None if replies[-1][0] == lines_of(run.output) else "a session gives another text after the same loads"


def problem_of_how(again: Again, plan: Plan, run: Run) -> Optional[str]:
    """What is wrong with the fragment of `how`: where it is merged, each line that is wanted has its value, so that a
    session gives the same text after these are merged, too."""
    bodies = [(b"load", plan.given.config)] if plan.has_config else []
    bodies.append((b"merge", run.output))
    first = b"".join(load_command(word, text) for word, text in bodies) + b"config\n"
    second = b"".join(load_command(b"merge", text) for text in plan.fragments) + b"config\n"
    given = replace(plan.given, stream=first + second)
    session = replace(plan, target="session", given=given, has_config=False, options=(), fragments=())
    other, problem = again(session)
    if problem:
        return f"a session with the same loads: {problem}"
    replies = list(replies_of(other.output))
    if any(last != b"ok" for _, last in replies) or len(replies) <= len(bodies):
        return "a session refuses what how loads"
    return None if replies[-1][0] == replies[len(bodies)][0] else "a wanted value that the fragment does not give"


def load_command(word: bytes, text: bytes) -> bytes:
    """The command of a session that loads a text."""
    ended = text if text.endswith(b"\n") or not text else text + b"\n"
    return b"%s %d\n%s" % (word, ended.count(b"\n"), ended)


def problem_of_make(again: Again, plan: Plan, run: Run) -> Optional[str]:
    """What is wrong with the values for make: they are those of the `.config`."""
    other, problem = again(replace(plan, target="olddefconfig"))
    if problem:
        return f"olddefconfig: {problem}"
    wanted = list(make_lines(run.prefix, lines_of(other.output)))
    return None if lines_of(run.output) == wanted else "other values than in the .config"


def make_lines(prefix: bytes, lines: List[bytes]) -> Iterator[bytes]:
    """The lines for make of those of a `.config` (docs/FILES.md)."""
    for line in lines:
        found = re.fullmatch(rb"(" + prefix + rb"\w+=)(.*)", line, re.DOTALL)
        if found and not line.startswith(b"#"):
            quoted = re.fullmatch(rb'"(.*)"', found[2], re.DOTALL)
            text = re.sub(rb"\\(.)", rb"\1", quoted[1], flags=re.DOTALL) if quoted else found[2]
            yield found[1] + make_text(text)


def make_text(text: bytes) -> bytes:
    """A value as make reads it."""
    written = re.sub(rb"(?<=[\\\r])#", rb"$()\#", text.replace(b"$", b"$$"))
    written = re.sub(rb"(?<!\\)#", rb"\#", written)
    before = b"$()" if text[:1] in (b" ", b"\t", b"\v", b"\f", b"\r") and text else b""
    return before + written + (b"$()" if text[-1:] in (b"\\", b"\r") and text else b"")


def problem_of_why(again: Again, plan: Plan, run: Run) -> Optional[str]:
    """What is wrong with the values of `why`: those of a session."""
    rows, problem = rows_of_session(again, plan)
    for block in blocks_of(run.output):
        head = HEAD.fullmatch(block[0])
        row = rows.get(head[1].decode()) if head else None
        if not problem and (head is None or row is None or (head[3], head[2], head[4]) != row[:3]):
            problem = f"{block[0]!r} beside {row!r}"
    return problem and f"the values of a session: {problem}"


def problem_of_menu(again: Again, plan: Plan, run: Run) -> Optional[str]:
    """What is wrong with the values of `menu`: those of a session, and each symbol is there."""
    rows, problem = rows_of_session(again, plan)
    objects = [row for row in map(object_of, lines_of(run.output)) if row and "name" in row]
    for row in objects:
        wanted = rows.get(row["name"])
        if not problem and wanted != listed_row(row):
            problem = f"{row['name']} is {listed_row(row)!r} beside {wanted!r}"
    if not problem and {row["name"] for row in objects} != set(rows):
        problem = "other symbols"
    return problem and f"the values of a session: {problem}"


def listed_row(row: Dict[str, object]) -> Tuple[bytes, ...]:
    """The type, the value, the visibility and the values that can be set of an object, as a session writes them."""
    value = str(row["value"])
    if row["type"] == "string":
        value = '"' + value.replace("\\", "\\\\").replace('"', '\\"') + '"'
    can = row.get("can")
    shown = ",".join(map(str, can)) if isinstance(can, list) and can else "-"
    return tuple(str(it).encode() for it in (row["type"], value, row["vis"], shown))


def rows_of_session(again: Again, plan: Plan) -> Tuple[Dict[str, Tuple[bytes, ...]], Optional[str]]:
    """The type, the value, the visibility and the values that can be set of each symbol in a session."""
    given = replace(plan.given, stream=b"list\n")
    other, problem = again(replace(plan, target="session", given=given, options=(), names=()))
    found = [row for row in map(LISTED.fullmatch, lines_of(other.output)) if row]
    return {row[1].decode(): (row[2], row[3], row[4], row[5]) for row in found}, problem
