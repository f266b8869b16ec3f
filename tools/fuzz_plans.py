"""What the fuzzer runs: a target with options, names, fragments and changed texts, by a seed and a number."""

from dataclasses import dataclass, replace
from random import Random
from typing import List, Optional, Tuple

from fuzz_changes import changed
from fuzz_checks import WORD
from fuzz_inputs import Input, config_of, names_of, stream_of

# Targets without options of their own. More are drawn for the others, after all that is drawn for these.
PLAIN = ("olddefconfig", "savedefconfig", "listnewconfig", "genheader", "allnoconfig", "allyesconfig", "session")
# Each run of these is compared with others.
COMPARED = ("genmake", "files", "why", "check", "merge", "how", "menu")
TARGETS = (*PLAIN, *COMPARED)
WITHOUT_CONFIG = ("allnoconfig", "allyesconfig", "files")
OPTIONS = {"why": b"--all", "check": b"--undefined", "how": b"--keep", "menu": b"--no-help"}
STRICT = ("check", "merge", "how")
TAKE_OPERANDS = ("why", "check", "merge", "how")
PREFIXES = (b"", b"P_", b"BR2_", b"x" * 64, b"x" * 65, b"A-", b"\xff")
WORDS = (b"A=b", b"ARCH=x86", b"A=", b"A=$(B)", b'B="a"', b"-A=b", b"A", b"A=\n", b"A=\xff", b"A=\x01", b"NET-1=a b")


@dataclass(frozen=True)
class Plan:
    """What is run: a target, its options, and what it is given."""

    target: str
    given: Input
    prefix: Optional[bytes] = None
    is_explained: bool = False
    has_config: bool = False
    compares: bool = False
    options: Tuple[bytes, ...] = ()
    names: Tuple[bytes, ...] = ()
    fragments: Tuple[bytes, ...] = ()

    def words(self) -> List[bytes]:
        """The words behind the name of the program."""
        words = [self.target.encode(), b"Kconfig"]
        if self.target == "check":
            words += [b"config"] if self.has_config else []
        elif self.target not in WITHOUT_CONFIG:
            words.append(b"config" if self.has_config else b"-")
        words += [*self.operands(), *self.options]
        if self.prefix is not None:
            words += [b"--prefix", self.prefix]
        if self.is_explained:
            words.append(b"--explain")
        return words + ([b"--", *self.given.words] if self.given.words else [])

    def operands(self) -> Tuple[bytes, ...]:
        """What a target is given besides CONFIG: names of symbols, or the paths of fragments."""
        return self.names + tuple(path for path, _ in self.fragment_files())

    def fragment_files(self) -> List[Tuple[bytes, bytes]]:
        """The fragments, each with its path."""
        return [(b"fragment%d" % at, text) for at, text in enumerate(self.fragments, start=1)]

    def prefix_bytes(self) -> bytes:
        return b"CONFIG_" if self.prefix is None else self.prefix


def plan_of(seed: int, number: int, pools: List[List[Input]], targets: List[str]) -> Plan:
    """The plan of a run."""
    random = Random(f"{seed} {number}")
    pool = random.choice(pools)
    given, other = random.choice(pool), random.choice(random.choice(pools))
    target = random.choice(targets)
    prefix = random.choice(PREFIXES) if random.randrange(12) == 0 else None
    shown = b"CONFIG_" if prefix is None else prefix
    stream = given.stream if random.randrange(3) else given.stream + stream_of(random, given.kconfig, shown)
    given = replace(given, config=config_of(random, given.kconfig, shown), stream=stream)
    if random.randrange(16) == 0:
        given = replace(given, words=given.words + (random.choice(WORDS),))
    plan = Plan(
        target,
        changed_input(random, given, other),
        prefix,
        is_explained=random.randrange(10) == 0,
        has_config=random.randrange(3) > 0,
        compares=random.randrange(20) == 0 or target in COMPARED,
    )
    return plan if target in PLAIN else with_operands(random, plan, given.kconfig, shown)


def with_operands(random: Random, plan: Plan, kconfig: bytes, prefix: bytes) -> Plan:
    """The plan with the options of its target, and with names and fragments where it takes them: now and then none.

    Half of the runs explain, and half of the Kconfigs are without changes, as most of those with changes have an error.
    A word that is no variable is a name or a path for some of these targets, so it has no place there.
    """
    words = tuple(word for word in plan.given.words if WORD.fullmatch(word) or plan.target not in TAKE_OPERANDS)
    plan = replace(plan, given=replace(plan.given, words=words))
    if random.randrange(2):
        plan = replace(plan, given=replace(plan.given, kconfig=kconfig))
    options = tuple(
        word
        for word, is_taken in ((OPTIONS.get(plan.target), True), (b"--strict", plan.target in STRICT))
        if word is not None and is_taken and random.randrange(3) == 0
    )
    plan = replace(plan, options=options, is_explained=random.randrange(2) == 0)
    count = random.choice((0, 1, 1, 1, 1, 2, 2, 3, 4, 4))
    if plan.target == "why":
        return replace(plan, names=tuple(a_name(random, kconfig, prefix) for _ in range(count)))
    if plan.target in ("merge", "how"):
        return replace(plan, fragments=tuple(a_fragment(random, plan, kconfig, prefix) for _ in range(count)))
    return plan


def a_name(random: Random, kconfig: bytes, prefix: bytes) -> bytes:
    """A name for `why`, mostly of a symbol, now and then with the prefix."""
    names = names_of(kconfig)
    at_most = len(names) if random.randrange(12) == 0 else max(1, len(names) - 2)  # the last two may be no symbols'
    name = names[random.randrange(at_most)]
    return prefix + name if prefix.replace(b"_", b"").isalnum() and random.randrange(4) == 0 else name


def a_fragment(random: Random, plan: Plan, kconfig: bytes, prefix: bytes) -> bytes:
    """A fragment for some of the symbols of a Kconfig, half of them with changes."""
    text = config_of(random, kconfig, prefix)
    if random.randrange(2):
        return text
    return changed(random, text, [text, plan.given.config, plan.given.kconfig], count_of(random))


def changed_input(random: Random, given: Input, other: Input) -> Input:
    """An input with some changes: mostly in the Kconfig, and in all other texts now and then."""
    others = [other.kconfig, given.kconfig, other.stream or b"config\n"]
    rolls = [random.randrange(10) for _ in range(4)]
    if rolls[0] < 8:
        given = replace(given, kconfig=changed(random, given.kconfig, others, count_of(random)))
    if rolls[1] < 4:
        given = replace(given, config=changed(random, given.config, [given.config, *others], count_of(random)))
    if rolls[2] < 5:
        given = replace(given, stream=changed(random, given.stream, [given.stream, *others], count_of(random)))
    if rolls[3] < 4 and given.files:
        files = tuple((path, changed(random, text, others, count_of(random))) for path, text in given.files)
        given = replace(given, files=files)
    return given


def count_of(random: Random) -> int:
    """How many changes are made: mostly few."""
    return min(random.randrange(1, 5), random.randrange(1, 5)) if random.randrange(8) else random.randrange(5, 30)
