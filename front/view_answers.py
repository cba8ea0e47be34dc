"""The program's texts, as docs/FORMATS.md describes them: a report, a placement, a clock tree, a refutation."""
from dataclasses import dataclass

SIGNALS_FROM = 10


class Unreadable(Exception):
    """A text is not of the form that docs/FORMATS.md describes."""


@dataclass(frozen=True)
class Rank:
    rank: int
    cost: int
    choices: int


@dataclass(frozen=True)
class Placed:
    """A line of a placement: where a signal is, in which mode, and `kept`, `moved` or `need`."""

    pin: str
    signal: str
    mode: str
    state: str


@dataclass(frozen=True)
class Clock:
    """A clock tree. `pll` has source, M, N, P and Q; it and `hse` are None where they are off, as is a node."""

    source: str
    pll: tuple
    hse: tuple
    ahb: int
    apb1: int
    apb2: int
    vos: int
    nodes: dict
    vdd: int
    wait: str
    over: bool = False

    @property
    def step(self):
        """The power step, as a table counts it."""
        return self.vos + 3 if self.over else self.vos

    @property
    def scale(self):
        return f"{self.vos} with over-drive" if self.over else str(self.vos)


@dataclass(frozen=True)
class Report:
    rank: Rank
    placed: tuple
    clock: Clock
    code: str


@dataclass(frozen=True)
class Node:
    """A node of a refutation. `kind` is its letter, `words` what stands behind it; `path` has the splits above it as
    variable, position and whether the upper part was taken."""

    kind: str
    words: tuple
    path: tuple


def number(word):
    if not word.isdecimal():
        raise Unreadable(f"{word!r} is not a number")
    return int(word)


def expect(lines, word):
    """The words of the next line, which begins with `word`."""
    line = next(lines, None)
    if line is None or line.split(" ")[0] != word:
        raise Unreadable(f"a line that begins with {word!r} is due, and not {line!r}")
    return line.split(" ")[1:]


def placed_of(line, pins):
    words = line.rsplit(" ", 2)
    homes = [pin for pin in pins if words[0].startswith(pin + " ")]
    if len(words) != 3 or not homes:
        raise Unreadable(f"{line!r} is no line of a placement")
    pin = max(homes, key=len)
    return Placed(pin, words[0][len(pin) + 1:], words[1], words[2])


def placement_of(lines, pins):
    words = expect(lines, "rank")
    if len(words) != 5:
        raise Unreadable("the rank's line has other words")
    rank = Rank(number(words[0]), number(words[2]), number(words[4]))
    count = number(expect(lines, "pins")[0])
    return rank, tuple(placed_of(next(lines, ""), pins) for _ in range(count))


NODES = ("VCO_IN", "VCO", "SYSCLK", "HCLK", "PCLK1", "PCLK2", "APB1TIM", "APB2TIM", "CLK48")


def clock_of(lines):
    expect(lines, "clock")
    source, pll = expect(lines, "source")[0], expect(lines, "pll")
    hse, dividers = expect(lines, "hse"), expect(lines, "ahb")
    nodes = {}
    for name in NODES:
        word = expect(lines, name)[0]
        nodes[name] = None if word == "off" else number(word)
    supply = expect(lines, "vdd")
    return Clock(
        source=source,
        pll=None if pll == ["off"] else (pll[0], *map(number, pll[1:])),
        hse=None if hse == ["off"] else (hse[0], number(hse[1])),
        ahb=number(dividers[0]), apb1=number(dividers[2]), apb2=number(dividers[4]), vos=number(dividers[6]),
        nodes=nodes, vdd=number(supply[0]), wait=supply[2], over=dividers[7:] == ["over"],
    )


def read_placement(text, pins):
    return placement_of(iter(text.split("\n")), pins)


def read_tree(text):
    """The tree, and the number of the first limit that is broken, or None."""
    lines = iter(text.split("\n"))
    clock = clock_of(lines)
    words = expect(lines, "limits")
    return clock, None if words == ["met"] else number(words[-1])


def read_report(text, pins):
    """The report of `resolve`. What may stand behind the C text is passed over."""
    lines = iter(text.split("\n"))
    rank, placed = placement_of(lines, pins)
    clock = clock_of(lines)
    code = []
    for line in lines:
        if line == "proof 1":
            break
        code.append(line)
    while code and not code[-1]:
        code.pop()
    if not code or not code[0].startswith("#include"):
        raise Unreadable("the C text is due")
    return Report(rank, placed, clock, "\n".join(code) + "\n")


def read_refutation(text):
    """The nodes of a refutation, each with the splits above it, in the order of the text."""
    lines = iter(text.split("\n"))
    expect(lines, "proof")
    expect(lines, "bound")
    nodes, paths = [], [()]
    for line in lines:
        if line == "end":
            break
        if not paths:
            raise Unreadable("a node stands behind the last")
        kind, *words = line.split(" ")
        node = Node(kind, tuple(words), paths.pop())
        nodes.append(node)
        if kind == "S":
            variable, position = map(number, words)
            # the lower part follows first
            paths += [node.path + ((variable, position, upper),) for upper in (True, False)]
    return nodes
