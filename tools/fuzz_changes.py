"""Changes of bytes: of single ones, of tokens, of lines and of blocks; cuts, splices and long repeats."""

import re
from random import Random
from typing import Callable, List, Tuple

# A text is not made longer than this: past the longest line that is accepted, and still some milliseconds.
MOST_BYTES = 100_000
LONG_REPEAT = 70_000
SHORT_REPEAT = 3_000

TOKEN = re.compile(rb'"[^"\n]*"|\'[^\'\n]*\'|\$\([^)\n]*\)|[A-Za-z0-9_]+|&&|\|\||[!<>:+]=|[^\sA-Za-z0-9_]')
LINE = re.compile(rb"[^\n]*\n?")
BLOCK_START = re.compile(rb"^[ \t]*(?:menu|if|choice|config|menuconfig|comment|help)\b", re.MULTILINE)

DICTIONARY = (
    *b"config menuconfig menu endmenu if endif choice endchoice comment mainmenu source rsource osource".split(),
    *b"bool tristate string int hex def_bool def_tristate def_int prompt default depends on select imply".split(),
    *b"range visible optional help option modules allnoconfig_y env defconfig_list transitional".split(),
    *b"y m n MODULES A B C S1 S2 0 1 -1 0x0 0xffffffffffffffff 9223372036854775807 18446744073709551616".split(),
    *b"set unset reset load merge show list choices header defconfig new allno allyes".split(),
    *b"CONFIG_ CONFIG_A=y = != < <= > >= && || ! ( ) := += $ $( $(A) $(B) $(shell,date) ${A} $A \\ # ' \"".split(),
    *(b'""', b'"a"', b'"\\""', b"'a'", b'"$(A)"', b'"Kconfig"', b"\\\n", b"\n", b"\r\n", b"\t", b" ", b"        "),
    *(b"\0", b"\r", b"\x1b[31m", b"\x7f", b"\xff", b"\xc3\xa9", b"\xe2\x80\xa8", b"\xf0\x9f\x92\xa9", b"\xed\xa0\x80"),
    *(b"A := $(A)\n", b"A = $(B)\n", b"B += $(A) x\n", b'source "Kconfig"\n', b"---help---\n", b"is not set"),
    b"\xef\xbb\xbf",
)

BLOCKS = ((b"if A\n", b"endif\n"), (b'menu "m"\n', b"endmenu\n"), (b"choice\n", b"endchoice\n"))

Change = Callable[[Random, bytes, List[bytes]], bytes]


# ------------------------------------------------------------------------------------------------ bytes


def a_span(random: Random, size: int, most: int) -> Tuple[int, int]:
    """A span of a text of a size, mostly a short one."""
    start = random.randrange(size + 1)
    return start, min(size, start + random.randrange(1, max(2, min(most, size + 1))))


def flip(random: Random, data: bytes, _others: List[bytes]) -> bytes:
    if not data:
        return data
    at = random.randrange(len(data))
    return data[:at] + bytes([data[at] ^ (1 << random.randrange(8))]) + data[at + 1 :]


def replace_byte(random: Random, data: bytes, _others: List[bytes]) -> bytes:
    if not data:
        return data
    at = random.randrange(len(data))
    return data[:at] + bytes([random.randrange(256)]) + data[at + 1 :]


def insert_bytes(random: Random, data: bytes, _others: List[bytes]) -> bytes:
    at = random.randrange(len(data) + 1)
    return data[:at] + random.randbytes(random.randrange(1, 5)) + data[at:]


def remove_span(random: Random, data: bytes, _others: List[bytes]) -> bytes:
    start, end = a_span(random, len(data), 40)
    return data[:start] + data[end:]


def duplicate_span(random: Random, data: bytes, _others: List[bytes]) -> bytes:
    start, end = a_span(random, len(data), 200)
    return data[:end] + data[start:end] + data[end:]


def swap_spans(random: Random, data: bytes, _others: List[bytes]) -> bytes:
    a, b, c, d = sorted(random.randrange(len(data) + 1) for _ in range(4))
    return data[:a] + data[c:d] + data[b:c] + data[a:b] + data[d:]


def cut(random: Random, data: bytes, _others: List[bytes]) -> bytes:
    at = random.randrange(len(data) + 1)
    return data[:at] if random.randrange(2) else data[at:]


# ------------------------------------------------------------------------------------------------ tokens


def tokens_of(data: bytes) -> List[Tuple[int, int]]:
    return [found.span() for found in TOKEN.finditer(data)]


def replace_token(random: Random, data: bytes, _others: List[bytes]) -> bytes:
    """A token gives way to one of the dictionary, or to another one of the text."""
    tokens = tokens_of(data)
    if not tokens:
        return random.choice(DICTIONARY)
    start, end = random.choice(tokens)
    left, right = random.choice(tokens)
    word = random.choice(DICTIONARY) if random.randrange(2) else data[left:right]
    return data[:start] + word + data[end:]


def insert_token(random: Random, data: bytes, _others: List[bytes]) -> bytes:
    tokens = tokens_of(data) or [(0, 0)]
    at = random.choice(random.choice(tokens))
    return data[:at] + b" " + random.choice(DICTIONARY) + b" " + data[at:]


def remove_token(random: Random, data: bytes, _others: List[bytes]) -> bytes:
    start, end = random.choice(tokens_of(data) or [(0, 0)])
    return data[:start] + data[end:]


def swap_tokens(random: Random, data: bytes, _others: List[bytes]) -> bytes:
    tokens = tokens_of(data)
    if len(tokens) < 2:
        return data
    (a, b), (c, d) = sorted(random.sample(tokens, 2))
    return data[:a] + data[c:d] + data[b:c] + data[a:b] + data[d:]


# ------------------------------------------------------------------------------------------------ lines and blocks


def lines_of(data: bytes) -> List[bytes]:
    return [line for line in LINE.findall(data) if line]


def change_lines(random: Random, data: bytes, _others: List[bytes]) -> bytes:
    """Some lines are removed, doubled, moved, or changed for others."""
    lines = lines_of(data)
    if not lines:
        return data
    at, to = random.randrange(len(lines)), random.randrange(len(lines))
    roll = random.randrange(4)
    if roll == 0:
        del lines[at : at + random.randrange(1, 4)]
    elif roll == 1:
        lines.insert(to, lines[at])
    elif roll == 2:
        lines.insert(to, lines.pop(at))
    else:
        lines[at], lines[to] = lines[to], lines[at]
    return b"".join(lines)


def insert_lines(random: Random, data: bytes, others: List[bytes]) -> bytes:
    """Lines of another text come between those of this one."""
    given = lines_of(random.choice(others))
    lines = lines_of(data)
    if not given:
        return data
    start = random.randrange(len(given))
    at = random.randrange(len(lines) + 1)
    lines[at:at] = given[start : start + random.randrange(1, 12)]
    return b"".join(lines)


def change_blocks(random: Random, data: bytes, _others: List[bytes]) -> bytes:
    """What stands between the beginnings of two statements is moved, doubled, removed, or put into a block."""
    starts = [found.start() for found in BLOCK_START.finditer(data)]
    if len(starts) < 2:
        return data
    start, end = sorted(random.sample(starts, 2))
    block, to, roll = data[start:end], random.choice(starts), random.randrange(5)
    if roll == 0:
        return data[:start] + data[end:]
    if roll == 1:
        return data[:to] + block + data[to:]
    if roll == 2:
        rest = data[:start] + data[end:]
        return rest[:to] + block + rest[to:]
    opening, closing = random.choice(BLOCKS)
    return data[:start] + opening + block + closing + data[end:]


def splice(random: Random, data: bytes, others: List[bytes]) -> bytes:
    """The beginning of this text and the end of another one, cut at line ends or anywhere."""
    other = random.choice(others)
    left, right = random.randrange(len(data) + 1), random.randrange(len(other) + 1)
    if random.randrange(4):
        left = data.rfind(b"\n", 0, left) + 1
        right = other.rfind(b"\n", 0, right) + 1
    return data[:left] + other[right:]


def repeat(random: Random, data: bytes, _others: List[bytes]) -> bytes:
    """A span, a token or a line stands there again and again, now and then past the longest line that is accepted."""
    spans = tokens_of(data) if random.randrange(2) else [found.span() for found in LINE.finditer(data)]
    start, end = random.choice(spans) if spans and random.randrange(4) else a_span(random, len(data), 60)
    most = LONG_REPEAT if random.randrange(12) == 0 else SHORT_REPEAT
    word = data[start:end] + random.choice((b"", b"", b" ", b" && ", b"\n"))
    if not word:
        return data
    return data[:start] + word * random.randrange(2, 3 + most // len(word)) + data[end:]


CHANGES: Tuple[Tuple[int, Change], ...] = (
    *((4, flip), (4, replace_byte), (4, insert_bytes), (5, remove_span), (4, duplicate_span), (2, swap_spans)),
    *((2, cut), (14, replace_token), (12, insert_token), (8, remove_token), (6, swap_tokens), (12, change_lines)),
    *((8, insert_lines), (8, change_blocks), (3, splice), (4, repeat)),
)
WEIGHTS = [weight for weight, _ in CHANGES]
FUNCTIONS = [function for _, function in CHANGES]


def changed(random: Random, data: bytes, others: List[bytes], count: int) -> bytes:
    """The text after so many changes; `others` are texts that lines may come from."""
    for function in random.choices(FUNCTIONS, WEIGHTS, k=count):
        data = function(random, data, others)[:MOST_BYTES]
    return data
