"""What a picture shows: the signals at their pins, what each pin carries, what changed, and a set of signals that is too
large for its pins. All of it is made from the program's texts, the table and the project."""
from dataclasses import dataclass

from view_answers import SIGNALS_FROM


@dataclass(frozen=True)
class Place:
    """A signal at its pin. `home` is its pin in the project, None for a need; `others` are the further rows that it
    has in the table."""

    signal: str
    pin: str
    mode: str
    state: str
    home: str
    label: str
    locked: bool
    others: tuple

    @property
    def is_held(self):
        return self.signal == "-"

    @property
    def title(self):
        return "held" if self.is_held else self.signal

    @property
    def kind(self):
        return "held" if self.is_held else self.state


@dataclass(frozen=True)
class Wanted:
    """A signal of a set that is too large for its pins, with the pins where it can be."""

    signal: str
    pins: tuple
    need: bool
    locked: bool
    label: str = ""

    @property
    def title(self):
        return "a held pin" if self.signal == "-" else self.signal

    @property
    def named(self):
        """With its label, which tells signals of one name apart."""
        return f"{self.title} “{self.label}”" if self.label else self.title


@dataclass(frozen=True)
class HallSet:
    """Signals that have fewer pins than they are; for `lines` fewer interrupt lines. `case` tells under which splits."""

    wanted: tuple
    lines: bool
    case: tuple

    def pins(self):
        found = dict.fromkeys(pin for wanted in self.wanted for pin in wanted.pins)
        return tuple(found)


def places_of(placed, project, table):
    """The places of a placement, in its order: the project's signals, and then the needs."""
    places = []
    for index, line in enumerate(placed):
        own = project.pins[index] if index < len(project.pins) else None
        others = tuple(row for row in table.rows.get(line.signal, ()) if row.pin != line.pin)
        places.append(Place(
            signal=line.signal, pin=line.pin, mode=line.mode, state=line.state,
            home=own.name if own else None, label=own.label if own else "", locked=bool(own and own.locked),
            others=others,
        ))
    return places


def own_mode(signal):
    """The mode of a signal that the table has without rows."""
    if signal == "-":
        return "HELD"
    if signal.startswith("GPXTI"):
        return "EXTI"
    return signal.rpartition("_")[2].upper()


def homes_of(project, table):
    """The places of the project itself, where no choice fits."""
    places = []
    for own in project.pins:
        rows = table.rows.get(own.signal, ())
        mode = next((row.mode for row in rows if row.pin == own.name), own_mode(own.signal) if not rows else "")
        others = tuple(row for row in rows if row.pin != own.name)
        places.append(Place(own.signal, own.name, mode, "kept", own.name, own.label, own.locked, others))
    return places


def by_pin(places):
    """The places at each pin. Where nothing fits there may be several."""
    found = {}
    for place in places:
        found.setdefault(place.pin, []).append(place)
    return found


def values_of(signal, home, locked, table):
    """The pins of a variable in the order of its positions: its home first, and then its other rows in table order."""
    rows = table.rows.get(signal, ())
    if not rows:
        return (home,)
    order = {pin: place for place, pin in enumerate(table.pins)}
    pins = sorted((row.pin for row in rows), key=order.get)
    if home is None:
        return tuple(pins)
    first = [pin for pin in pins if pin == home]
    return tuple(first if locked else first + [pin for pin in pins if pin != home])


def variables_of(project, needs, table):
    """Each signal's variable, in the order in which the signals are printed."""
    found = []
    for own in project.pins:
        pins = values_of(own.signal, own.name, own.locked, table)
        found.append(Wanted(own.signal, pins, False, own.locked, own.label))
    return found + [Wanted(need, values_of(need, None, False, table), True, False) for need in needs]


def within(variable, index, path):
    """The pins that a variable has left in the box that the splits lead to."""
    low, high = 0, len(variable.pins)
    for split, position, is_upper in path:
        if split == index and is_upper:
            low = max(low, position + 1)
        elif split == index:
            high = min(high, position + 1)
    return variable.pins[low:high]


def hall_sets(nodes, project, needs, table):
    """The sets of signals of a refutation that have too few pins."""
    variables, found = variables_of(project, needs, table), []
    for node in nodes:
        if node.kind != "H":
            continue
        indices = [int(word) - SIGNALS_FROM for word in node.words[1:]]
        if not all(0 <= index < len(variables) for index in indices):
            continue
        wanted = tuple(
            Wanted(v.signal, within(v, index + SIGNALS_FROM, node.path), v.need, v.locked, v.label)
            for index, v in ((index, variables[index]) for index in indices))
        found.append(HallSet(wanted, node.words[0] == "exti", node.path))
    return found


def ips_in_use(table, project, signals):
    """The peripherals with a need that the project, or a need, puts to use."""
    used = {table.ips[name] for name in signals if name in table.ips}
    return [ip for ip in table.raw["ips"] if ip["name"] in used or project.marks & set(ip.get("marks", []))]
