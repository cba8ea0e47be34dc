"""A project's lines as a person sees them. It refuses nothing: the proved program does that."""
import re
from typing import NamedTuple

ESCAPED = b" \\:=#!"
PIN_KEYS = (".Signal", ".Locked", ".GPIO_PuPd", ".GPIO_Speed")


class Line(NamedTuple):
    """A line with a key. `start` is where its value begins, in bytes."""

    number: int
    raw: bytes
    key: str
    value: str
    start: int


class Project:
    """The lines of a project. Of a key that stands twice the first counts."""

    def __init__(self, file, content):
        self.file = file
        self.raw = [line[:-1] if line.endswith(b"\r") else line for line in content.split(b"\n")]
        self.keys = {}
        for number, raw in enumerate(self.raw, 1):
            line = line_of(number, raw)
            if line and line.key not in self.keys:
                self.keys[line.key] = line

    def get(self, key, default=None):
        return self.keys[key].value if key in self.keys else default

    def line(self, number):
        """The line of that number, or None where there is none."""
        return self.raw[number - 1] if 1 <= number <= len(self.raw) else None

    def pins(self):
        """The lines `Mcu.Pin<k>` with k ascending, without those of names that begin with VP_."""
        found = []
        for key, line in self.keys.items():
            match = re.fullmatch(r"Mcu\.Pin(0|[1-9]\d*)", key)
            if match and not line.value.startswith("VP_"):
                found.append((int(match[1]), line))
        return [line for _, line in sorted(found, key=lambda pair: pair[0])]

    def of_pin(self, pin, part):
        return self.keys.get(f"{pin}.{part}")

    def is_true(self, key):
        return self.get(key) == "true"


def read(file):
    with open(file, "rb") as stream:
        return Project(file, stream.read())


def unescaped(raw):
    return re.sub(rb"\\([ \\:=#!])", rb"\1", raw).decode("utf-8", "surrogateescape")


def line_of(number, raw):
    """The line's key and value at the first `=` that no backslash stands before; None where it has none."""
    if not raw or raw.startswith(b"#"):
        return None
    found = re.match(rb"(?:\\.|[^\\=])*=", raw, re.DOTALL)
    if not found:
        return None
    end = found.end()
    return Line(number, raw, unescaped(raw[: end - 1]), unescaped(raw[end:]), end)


def bad_escape(raw, start):
    """Where the first backslash is that stands before no byte which may be escaped."""
    place = start
    while place < len(raw):
        if raw[place : place + 1] == b"\\":
            if place + 1 >= len(raw) or raw[place + 1] not in ESCAPED:
                return place
            place += 1
        place += 1
    return None


def clock(project, table):
    """The clock tree where the project has it, in the table's words: the table's defaults where it is silent."""
    tree = dict(table.data.get("defaults", {}))
    number = re.compile(r"(?:RCC_(?:PLLP|SYSCLK|HCLK)_DIV)?(\d+)")
    for key, name in (("HSE_VALUE", "hse"), ("PLLM", "m"), ("PLLN", "n"), ("PLLQ", "q"), ("PLLP", "p"),
                      ("AHBCLKDivider", "hpre"), ("APB1CLKDivider", "ppre1"), ("APB2CLKDivider", "ppre2")):
        found = number.fullmatch(project.get("RCC." + key, ""))
        if found:
            tree[name] = int(found[1])
    for key, name, start in (("SYSCLKSource", "src", "RCC_SYSCLKSOURCE_"), ("PLLSourceVirtual", "psrc", "RCC_PLLSOURCE_")):
        value = project.get("RCC." + key, "")
        if value.startswith(start):
            tree[name] = value[len(start) :].replace("PLLCLK", "PLL")
    return tree
