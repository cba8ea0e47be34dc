"""Why signals can't all have pins of their own: some that have fewer pins than they are. Worked out here, not proved."""
from typing import NamedTuple

from table import place_of


class Wanted(NamedTuple):
    """A signal, the pins where it may be, and the line of the project that keeps it where it is (0: none)."""

    signal: str
    pins: tuple
    line: int
    why: str


def wanted_signals(project, table, needs, is_free):
    """The signals of a project and the needs, each with the pins that are open to it."""
    found = []
    for line in project.pins():
        pin = line.value
        signal = project.of_pin(pin, "Signal")
        if signal is None:
            found.append(Wanted("-", (pin,), line.number, "held"))
            continue
        rows = tuple(at for at, _ in table.rows(signal.value))
        fixed = why_fixed(project, pin, rows, is_free)
        pins = (pin,) if fixed else tuple(dict.fromkeys(((pin,) if pin in rows else ()) + rows))
        found.append(Wanted(signal.value, pins, signal.number, fixed))
    found += [Wanted(name, tuple(at for at, _ in table.rows(name)), 0, "") for name in needs]
    return found


def why_fixed(project, pin, rows, is_free):
    """Why a signal stays at its pin; empty where it may move."""
    if not rows:
        return "no rows"
    if project.is_true(f"{pin}.Locked"):
        return "locked"
    if project.is_true("KeepUserPlacement"):
        return "KeepUserPlacement"
    return "" if is_free else "--free"


def crowd(wanted):
    """Signals that have fewer pins than they are, as a list of places in `wanted`; empty where all can be placed."""
    taken = {}
    for number in range(len(wanted)):
        seen = set()
        if not placed(number, wanted, taken, seen):
            return sorted({number} | {taken[pin] for pin in seen})
    return []


def placed(number, wanted, taken, seen):
    """Gives a signal a pin, moving others along where it must; by a stack, since chains can be long."""
    stack = [(number, iter(wanted[number].pins))]
    way = []
    while stack:
        _, pins = stack[-1]
        pin = next((pin for pin in pins if pin not in seen), None)
        if pin is None:
            stack.pop()
            if way:
                way.pop()
            continue
        seen.add(pin)
        way.append(pin)
        if pin not in taken:
            for (who, _), at in zip(stack, way):
                taken[at] = who
            return True
        stack.append((taken[pin], iter(wanted[taken[pin]].pins)))
    return False


def same_interrupts(wanted, table):
    """The first two or more interrupts at pins of one number."""
    lines = {}
    for number, one in enumerate(wanted):
        if table.use(one.signal) == "exti" and place_of(one.pins[0]):
            lines.setdefault(place_of(one.pins[0])[1], []).append(number)
    return next((numbers for numbers in lines.values() if len(numbers) > 1), [])
