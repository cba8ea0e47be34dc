"""The table and the project, as far as a picture needs them. docs/FORMATS.md tells their forms.

The program has read both before this module does, so that it looks for no faults.
"""
import json
import re
from dataclasses import dataclass, field


@dataclass(frozen=True)
class Row:
    """A pin where a signal can be, with its mode as the program prints it."""

    pin: str
    mode: str


@dataclass(frozen=True)
class Table:
    """A part. `package_pins` has the names of all pins from pin 1 on, or is empty where the table tells none."""

    parts: tuple
    package: str
    pins: tuple
    package_pins: tuple
    rows: dict
    ips: dict
    raw: dict

    def numbers(self):
        """The number of each port pin of the package."""
        return {name: number for number, name in enumerate(self.package_pins, 1) if name in set(self.pins)}


@dataclass(frozen=True)
class ProjectPin:
    name: str
    signal: str
    label: str
    locked: bool


@dataclass(frozen=True)
class Project:
    part: str
    pins: tuple = ()
    marks: frozenset = field(default_factory=frozenset)


def rows_of(signal, pins):
    """The rows of a signal in the order in which the pins stand in the table's rows."""
    rows = []
    for at in signal.get("at", []):
        pin, mode = (at[0], f"AF{at[1]}") if signal["use"] == "alt" else (at, signal["use"].upper())
        rows.append(Row(pin, mode))
    return tuple(row for row in rows if row.pin in pins)


def read_table(data):
    raw = json.loads(data)
    pins = tuple(raw["pins"])
    known = set(pins)
    package_pins = raw.get("package_pins", [])
    usable = isinstance(package_pins, list) and all(isinstance(name, str) for name in package_pins)
    return Table(
        parts=tuple(raw["names"]),
        package=raw["package"],
        pins=pins,
        package_pins=tuple(package_pins) if usable and known <= set(package_pins) else (),
        rows={signal["name"]: rows_of(signal, known) for signal in raw["signals"]},
        ips={signal["name"]: signal["ip"] for signal in raw["signals"] if signal.get("ip")},
        raw=raw,
    )


def unescaped(text):
    return re.sub(r"\\([ \\:=#!])", r"\1", text)


def keys_of(text):
    """The keys with their values. A key ends at the first `=` that no backslash stands before."""
    keys = {}
    for line in text.split("\n"):
        found = re.fullmatch(r"((?:[^\\=]|\\.)*)=(.*?)\r?", line, re.DOTALL)
        if found and not line.startswith("#"):
            keys[unescaped(found[1])] = unescaped(found[2])
    return keys


def read_project(data):
    keys = keys_of(data.decode("utf-8", "replace"))
    whole = keys.get("KeepUserPlacement") == "true"
    order = sorted((int(key[7:]), name) for key, name in keys.items() if re.fullmatch(r"Mcu\.Pin[0-9]+", key))
    pins, marks = [], set()
    for _, name in order:
        signal = keys.get(name + ".Signal", "")
        if name.startswith("VP_"):
            marks.add(signal)
            continue
        locked = whole or keys.get(name + ".Locked") == "true"
        pins.append(ProjectPin(name, signal or "-", keys.get(name + ".GPIO_Label", ""), locked))
    return Project(part=keys.get("Mcu.Name", ""), pins=tuple(pins), marks=frozenset(marks))
