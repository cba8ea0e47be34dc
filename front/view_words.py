"""What the page says in sentences: of a pin, of a set of signals with too few pins, and of the answer as a whole."""
import re

from view_board import by_pin
from view_clock import changes_of
from view_limits import LIMITS
from view_svg import counted, cut


def listed(names):
    """`A, B and C`; of many the first few and how many more there are."""
    shown = list(names) if len(names) <= 6 else list(names[:5]) + [f"{len(names) - 5} more"]
    return " and ".join([", ".join(shown[:-1])] * bool(shown[1:]) + shown[-1:])


def part_of(view):
    return view.project.part or view.table.parts[0]


# ---- pins ----


def where(table, pin):
    number = table.numbers().get(pin)
    return f"{pin} (pin {number})" if number else pin


def who(here):
    """What is at a pin."""
    return " and ".join(
        place.title + (f" “{cut(place.label, 32)}”" if place.label else "") + (", locked" if place.locked else "")
        for place in here) or "free"


def state_words(place, view):
    """How it came to its pin; of a held pin the title tells that already."""
    if place.is_held:
        return ""
    if place.state == "moved":
        return f", moved from {where(view.table, place.home)}"
    return ", placed for a need" if place.state == "need" else f", {place.state}"


def about_place(place, view, here):
    text = place.title
    text += f", {place.mode}" if place.mode and not place.is_held else ""
    text += f", “{place.label}”" if place.label not in ("", place.pin, place.title) else ""
    text += state_words(place, view)
    text += ", locked" if place.locked else ""
    if place.others:
        others = (f"{where(view.table, row.pin)}: {who(here.get(row.pin, []))}" for row in place.others)
        text += f". It could also be at {'; '.join(others)}"
    return text + "."


def abouts(view):
    """A sentence or two about each port pin."""
    here, numbers, found = by_pin(view.places), view.table.numbers(), {}
    contested = view.hall.pins() if view.hall else ()
    for pin in view.table.pins:
        head = f"{pin}, pin {numbers[pin]}: " if pin in numbers else f"{pin}: "
        said = " ".join(about_place(place, view, here) for place in here.get(pin, []))
        found[pin] = head + (said or "free.") + (" Too many signals want it." if pin in contested else "")
    return found


# ---- a set of signals with too few pins ----


def lines_of(hall):
    """The interrupt lines of the set's pins, which the pins' numbers tell apart."""
    return sorted({re.match(r"P[A-Z](\d+)", pin)[1] for pin in hall.pins()}, key=int)


def reason_of(hall):
    """The sentence that says why a set of signals can't be placed."""
    pins, signals = hall.pins(), [wanted.named for wanted in hall.wanted]
    if hall.lines:
        lines = lines_of(hall)
        have = f"have the {'number' if len(lines) == 1 else 'numbers'} {listed(lines)}"
        wanted = f"{counted(len(signals), 'interrupt')} want {counted(len(lines), 'interrupt line')}"
        return f"{wanted}: the pins {listed(pins)} {have}."
    if not pins:
        return f"{listed(signals)} can be at no pin at all."
    wanted = f"{counted(len(signals), 'signal')} want {counted(len(pins), 'pin')}"
    return f"{wanted}: {listed(signals)} have only {listed(pins)} between them."


def why_counted(wanted):
    """Why a signal of the set has these pins alone."""
    if wanted.need:
        return "a need"
    if wanted.locked:
        return "locked at its pin"
    return "has no other pin" if len(wanted.pins) == 1 else "in the project"


def hall_words(view):
    """How many pins, or interrupt lines, the signals of the set have between them."""
    hall = view.hall
    if hall.lines:
        has = f"{counted(len(lines_of(hall)), 'interrupt line')} between them: a line is shared by all pins of one number."
    else:
        pins = ", ".join(where(view.table, pin) for pin in hall.pins())
        has = f"{counted(len(hall.pins()), 'pin')} between them, {pins}."
    case = (" This is one of the cases that the refutation goes through; others differ from it in clock values or in "
            "where signals are.") if hall.case else ""
    return f"These {len(hall.wanted)} signals have {has}{case}"


def closing_words(kind, what):
    """How a case of a refutation is closed."""
    if kind == "L":
        return f"limit {what}: {LIMITS.get(what, '')}"
    if kind == "H":
        return f"a set of {'signals' if what == 'pins' else 'interrupts'} that is larger than the set of its " + (
            "pins" if what == "pins" else "lines")
    return "a rank that is no lower than the bound"


# ---- the answer ----


def moves(view):
    return [place for place in view.places if place.state == "moved"]


def reason(view):
    if view.hall:
        return reason_of(view.hall)
    if len(view.closing) == 1 and view.closing[0][0] == "L":
        number = view.closing[0][1]
        return f"Limit {number}, whatever is chosen: {LIMITS.get(number, '')}."
    return "The cases are closed one by one; see below."


def placed_words(view):
    """How many signals are placed, for needs, and moved."""
    if not view.places:
        return ["the project places no signal"]
    moved, needs = len(moves(view)), sum(place.state == "need" for place in view.places)
    said = [counted(len(view.places), "signal") + " placed"]
    said += [f"{needs} of them for " + ("a need" if needs == 1 else "needs")] if needs else []
    return said + [f"{moved} moved" if moved else "none moved"]


def verdict(view):
    """The class, the title and the sentence of the answer."""
    if view.refuted:
        return "bad", "Nothing fits", reason(view)
    said = placed_words(view)
    if view.report is None:
        kind, title = "partly", "The pins fit"
    else:
        kind, title = "good", "Everything fits"
        changed = changes_of(view.clock, view.old)
        said.append(counted(len(changed), "clock setting") + " changed" if changed else "the clock tree as it was")
    text = ", ".join(said)
    return kind, title, text[0].upper() + text[1:] + "."
