"""What the fuzzer checks of a run: its status, the forms of standard error and of standard output, and the replies.

The forms are those of docs/COMMANDS.md; those of the targets that report are in fuzz_reports.py.
"""

import re
from typing import Iterator, List, Optional, Tuple

from fuzz_how import how_problems, is_how_report
from fuzz_reports import EXCHANGED, Run, is_merge_report, merge_problems, report_problems

LONGEST_LINE = 65_536
LONGEST_TEXT = 16_777_216
REPORTS = ("genmake", "files", "why", "check", "menu")

WORD = re.compile(rb"[A-Za-z0-9_][A-Za-z0-9_-]*=.*", re.DOTALL)
PREFIX = re.compile(rb"[A-Za-z0-9_]{0,64}")

WARNING = re.compile(rb"kconf: (.+):(\d+): warning ([1-5])")
LINE_FAULT = re.compile(rb"kconf: (.+):(\d+): K(?:0[1-9]|1[0-9]|20)")
SYMBOL_FAULT = re.compile(rb"kconf: K1[2-8] \w+")
LOOP_FAULT = re.compile(rb"kconf: K19")
LOOP_NODE = re.compile(rb"kconf: on .+", re.DOTALL)
NO_SYMBOL = re.compile(rb"kconf: (\w+): no such symbol(?:; did you mean \w+\?)?")
FILE_FAULT = re.compile(rb"kconf: (.*): (?:cannot read|not UTF-8|limit)")
# No run of the fuzzer gives a reason for these: streams are files, and there is memory enough.
UNEXPECTED = (b"kconf: memory", b"kconf: cannot read", b"kconf: cannot write")
EXPLAINED = re.compile(
    rb"(kconf: .+:\d+: (?:warning \d|K\d\d)|kconf: K\d\d(?: \w+)?|kconf: .*: (?:cannot read|not UTF-8|limit)): .+",
    re.DOTALL,
)
# A line that is named after the words, with its place; or the words of a refusal.
REMARK = re.compile(rb"  \S.*|kconf: command \d+: refused [1-7]: \S.*", re.DOTALL)

REFUSED = re.compile(rb"refused [1-7]")
SYMBOL_LINE = re.compile(
    rb"\w+ type=(?:bool|tristate|string|int|hex) value=(.*) vis=[nmy] can=(?:-|[nmy](?:,[nmy])*) user=(.*)", re.DOTALL
)
CHOICE_LINE = re.compile(rb'choice \d+ "(.*)" mode=[nmy] sel=[\w-]+ user=[\w-]+', re.DOTALL)
WARNING_LINE = re.compile(rb"warning \d+ [1-5]")
COUNT = re.compile(rb"[0-9]{1,7}")
NO_ARGUMENTS = (b"reset", b"allno", b"allyes", b"list", b"choices", b"config", b"header", b"defconfig", b"new")


def problem_of(run: Run) -> Optional[str]:
    """The first thing that is wrong with a run, or none."""
    if run.is_hung:
        return "it did not end"
    if run.signal:
        return f"signal {run.signal}"
    if run.status not in (0, 1, 2):
        return f"status {run.status}"
    return next(problems_of(run), None)


def problems_of(run: Run) -> Iterator[str]:
    is_usage = is_misused(run)
    if (run.status == 2) != is_usage:
        yield f"status {run.status} where the words are {'no' if is_usage else 'a'} command line"
    if run.status == 2:
        if not run.errors.startswith(b"error: ") or run.output:
            yield "a mistake of usage that is not reported as one"
        return
    if run.target == "merge" and run.status == 0 and not is_merge_report(run):
        yield "no numbers at the end of the report"
    if run.target == "how" and run.status == 0 and not is_how_report(run):
        yield "no numbers at the end of the report"
    if is_merge_report(run):
        yield from merge_problems(run)
        yield from output_problems(run)
        return
    if is_how_report(run):
        yield from how_problems(run)
        return
    yield from error_problems(run)
    if run.errors and run.status == 1 and run.output and not run.target == "session":
        yield "output beside a fault"
    if run.status == 0 or not has_fault(run):
        yield from output_problems(run)


def is_misused(run: Run) -> bool:
    """Whether the words are no command line."""
    is_asked = bool(run.operands) or run.target == "how" and any(word.startswith(run.prefix) for word in run.words)
    if run.target in ("why", "merge", "how") and not is_asked:
        return True
    words = (*run.words, run.prefix)
    are_words = all(WORD.fullmatch(word) for word in run.words) and PREFIX.fullmatch(run.prefix)
    return not are_words or any(not is_utf8(word) for word in words)


def is_utf8(data: bytes) -> bool:
    try:
        data.decode()
    except UnicodeDecodeError:
        return False
    return True


# ------------------------------------------------------------------------------------------------ standard error


def error_problems(run: Run) -> Iterator[str]:
    """What is wrong with the lines of standard error: warnings, and behind a fault nothing."""
    if run.errors and not run.errors.endswith(b"\n"):
        yield "a line of standard error without its end"
    warnings, fault = parts_of_errors(run)
    yield from warning_problems(run, warnings)
    if run.target == "why" and fault and all(map(NO_SYMBOL.fullmatch, fault)):
        yield from unknown_name_problems(run, fault)
        return
    if fault and not (are_faults(fault) if run.target == "check" else is_fault(fault)):
        yield f"a line of standard error that has no known form: {fault[0]!r}"
    is_strict = b"--strict" in run.options and not fault  # then a finding, too, makes it 1
    if bool(fault) != (run.status == 1) and not is_strict:
        yield f"status {run.status} {'with' if fault else 'without'} a fault"
    if fault and fault[0] in UNEXPECTED:
        yield f"{fault[0].decode()}, without a reason"
    elif fault and warnings:
        yield "warnings beside a fault of the tree"
    yield from place_problems(run, fault)


def parts_of_errors(run: Run) -> Tuple[List[bytes], List[bytes]]:
    """The warnings and the lines behind them, all without the words that explain them."""
    plain = run.errors.split(b"\n")[:-1]
    if run.is_in_words():
        named = [line for line in plain if not REMARK.fullmatch(line) and not EXCHANGED.fullmatch(line)]
        plain = [line_without_words(line) for line in named]
    count = 0
    while count < len(plain) and WARNING.fullmatch(plain[count]):
        count += 1
    return plain[:count], plain[count:]


def has_fault(run: Run) -> bool:
    """Whether an error was reported."""
    return bool(parts_of_errors(run)[1])


def unknown_name_problems(run: Run, lines: List[bytes]) -> Iterator[str]:
    """What is wrong with the names of `why` that no symbol has: they are some of those that it was given, in order."""
    given = iter(run.operands)
    if run.status != 1:
        yield f"status {run.status} with a name that no symbol has"
    named = [found[1] for found in map(NO_SYMBOL.fullmatch, lines) if found]
    if not all(any(name == operand for operand in given) for name in named):
        yield "a name that was not given, or not in this order"


def line_without_words(line: bytes) -> bytes:
    """A line without the words that explain it; one that should have them and has none is of no known form."""
    found = EXPLAINED.fullmatch(line)
    if found:
        return found[1]
    is_number = WARNING.fullmatch(line) or LINE_FAULT.fullmatch(line) or SYMBOL_FAULT.fullmatch(line)
    return b"without words: " + line if is_number or LOOP_FAULT.fullmatch(line) else line


def is_fault(lines: List[bytes]) -> bool:
    """Whether lines are one fault."""
    if LOOP_FAULT.fullmatch(lines[0]):
        return len(lines) > 1 and all(LOOP_NODE.fullmatch(line) for line in lines[1:])
    forms = (LINE_FAULT, SYMBOL_FAULT, FILE_FAULT)
    return len(lines) == 1 and (lines[0] in UNEXPECTED or any(form.fullmatch(lines[0]) for form in forms))


def are_faults(lines: List[bytes]) -> bool:
    """Whether lines are the faults that `check` reports: a loop alone, or one or more others."""
    return is_fault(lines) or all(is_fault([line]) for line in lines)


def warning_problems(run: Run, lines: List[bytes]) -> Iterator[str]:
    """What is wrong with the numbers of warnings: they are those of lines of CONFIG, each once and in their order."""
    if lines and run.target in ("check", "merge", "how", "files", "allnoconfig", "allyesconfig"):
        yield "warnings of a target that has none"
    numbers = [int(found[2]) for found in map(WARNING.fullmatch, lines) if found]
    most = (run.config or b"").count(b"\n") + 1
    if numbers != sorted(set(numbers)) or any(not 1 <= number <= most for number in numbers):
        yield "warnings that are not in the order of the lines of CONFIG"


def place_problems(run: Run, fault: List[bytes]) -> Iterator[str]:
    """What is wrong with the place of a fault: it is a line of a file that was given."""
    for found in filter(None, map(LINE_FAULT.fullmatch, fault)):
        if run.texts is None or found[1] not in run.texts:
            continue
        text = run.texts[found[1]]
        if int(found[2]) > text.count(b"\n") + (not text.endswith(b"\n")) + 1:  # the end of a file is a line behind it
            yield f"a fault at a line that is not there: {found[0]!r}"


# ------------------------------------------------------------------------------------------------ standard output


def output_problems(run: Run) -> Iterator[str]:
    if run.target == "session":
        yield from reply_problems(run)
        return
    if run.target in REPORTS:
        yield from report_problems(run)
        return
    if run.output and not run.output.endswith(b"\n"):
        yield "a line of standard output without its end"
    lines = run.output.split(b"\n")[:-1]
    form = header_line(run.prefix) if run.target == "genheader" else config_line(run.prefix)
    wrong = [line for line in lines if not form.fullmatch(line)]
    if wrong:
        yield f"a line of standard output that has no known form: {wrong[0]!r}"


def config_line(prefix: bytes) -> "re.Pattern[bytes]":
    """The form of the lines of a `.config`, and of the two lists that are like one. The value of a number may be any
    text, as that of a symbol that is its default."""
    return re.compile(rb"|#|# .*|" + prefix + rb"\w+=(?:\".*\"|[^\"].*|)", re.DOTALL)


def header_line(prefix: bytes) -> "re.Pattern[bytes]":
    """The form of the lines of a C header."""
    return re.compile(rb"#define " + prefix + rb"\w+ (?:\".*\"|[^\"].*)", re.DOTALL)


# ------------------------------------------------------------------------------------------------ replies


def reply_problems(run: Run) -> Iterator[str]:
    """What is wrong with the replies: there is one for each command, in its form, and 1, 5 and 6 where they must be."""
    replies = list(replies_of(run.output))
    if replies and replies[-1][1] is None:
        yield "a reply that does not end"
        return
    commands = list(commands_of(run.stream))
    if len(replies) != len(commands):
        yield f"{len(replies)} replies to {len(commands)} commands"
        return
    for (line, wanted), (text, last) in zip(commands, replies):
        yield from problems_of_reply(run.prefix, line, wanted, text, last or b"")


def replies_of(output: bytes) -> Iterator[Tuple[List[bytes], Optional[bytes]]]:
    """The lines of each reply and its last one; a reply that was cut has none."""
    text: List[bytes] = []
    for line in output.split(b"\n")[:-1]:
        if line == b"ok" or REFUSED.fullmatch(line):
            yield text, line
            text = []
        else:
            text.append(line)
    if text or (output and not output.endswith(b"\n")):
        yield text, None


def problems_of_reply(prefix: bytes, line: bytes, wanted: int, text: List[bytes], last: bytes) -> Iterator[str]:
    if last == b"refused 7":
        yield "a command that was refused memory"
    if wanted and last != b"refused %d" % wanted:
        yield f"{last!r} to a command that has to be refused {wanted}: {line[:60]!r}"
    if not wanted and last in (b"refused 1", b"refused 5"):
        yield f"{last!r} to a command that is well formed: {line[:60]!r}"
    if last != b"ok" and text:
        yield "a text before a refusal"
    form = form_of_reply(prefix, line.split(b" ")[0])
    if any(not form.fullmatch(it) for it in text):
        yield f"a reply to {line[:60]!r} that has no known form"


def form_of_reply(prefix: bytes, word: bytes) -> "re.Pattern[bytes]":
    """The form of the lines of the reply to a command of a name."""
    forms = {b"show": SYMBOL_LINE, b"list": SYMBOL_LINE, b"choices": CHOICE_LINE}
    forms.update({b"load": WARNING_LINE, b"merge": WARNING_LINE, b"header": header_line(prefix)})
    if word in (b"config", b"defconfig", b"new"):
        return config_line(prefix)
    return forms.get(word, re.compile(rb"no line"))


def commands_of(stream: bytes) -> Iterator[Tuple[bytes, int]]:
    """The line of each command of a stream, and its refusal where it is 1, 5 or 6, else 0."""
    lines = stream.split(b"\n")
    ended = [line[:-1] if line.endswith(b"\r") else line for line in lines[:-1]]
    given = ended + ([lines[-1]] if lines[-1] else [])
    at = 0
    while at < len(given):
        refusal, count = request_of(given[at])
        body = given[at + 1 : at + 1 + count]
        if not refusal and len(body) < count:
            refusal = 5
        elif not refusal and any(len(line) > LONGEST_LINE for line in body):
            refusal = 6
        yield given[at], refusal
        at += 1 + count


def request_of(line: bytes) -> Tuple[int, int]:
    """The refusal of a command line by itself, else 0, and how many lines it takes."""
    if len(line) > LONGEST_LINE:
        return 6, 0
    words = line.split(b" ")
    if not is_utf8(line):
        return 1, 0
    if words[0] in (b"load", b"merge") and len(words) == 2:
        return (0, int(words[1])) if COUNT.fullmatch(words[1]) else (5, 0)
    has_form = (
        (words[0] == b"set" and len(words) > 2)
        or (words[0] in (b"unset", b"show") and len(words) == 2)
        or (words[0] in NO_ARGUMENTS and len(words) == 1)
    )
    return (0 if has_form else 1), 0
