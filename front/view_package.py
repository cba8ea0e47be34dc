"""The package from above, with every pin; where the table has no pin numbers, the ports as a grid."""
import math
from dataclasses import dataclass

from view_board import by_pin
from view_svg import cut, element, esc, rounded, text_at, width_of

LETTERS_OF_LABEL = 44
PAD_INSIDE = 22


@dataclass(frozen=True)
class Frame:
    """The measures of a drawing. A wide one has a label beside each pin, a narrow one none. `spaces` are those beside the
    body: left, below, right and above, as the pins run."""

    wide: bool
    pitch: float
    font: float
    pad: float
    body: float
    spaces: tuple

    @property
    def low(self):
        """The upper left corner of the body."""
        return self.spaces[0], self.spaces[3]

    @property
    def high(self):
        return self.low[0] + self.body, self.low[1] + self.body

    @property
    def middle(self):
        return self.low[0] + self.body / 2, self.low[1] + self.body / 2

    @property
    def size(self):
        return self.high[0] + self.spaces[2], self.high[1] + self.spaces[1]


@dataclass(frozen=True)
class Spot:
    """Where a pin is: the point at the edge of the body, whether its labels are turned, and whether the outside lies in
    the direction of its text (1) or against it (-1)."""

    name: str
    number: int
    x: float
    y: float
    turned: bool
    sign: int

    def inside(self, far, aside=0):
        """The point so far inside the body, and so far along its edge."""
        if self.turned:
            return self.x + aside, self.y + self.sign * far
        return self.x - self.sign * far, self.y + aside


@dataclass(frozen=True)
class Scene:
    """What is drawn of a board: the places at each pin, the pins of a set that is too large, and texts for the pins."""

    title: tuple
    places: list
    hall: object
    about: dict
    port_pins: frozenset
    pins_of_package: int

    def kind(self, name):
        """The class of a pin."""
        if name not in self.port_pins:
            return "power"
        here = by_pin(self.places).get(name)
        return here[0].kind if here else "free"


# ---- labels ----


def label_parts(name, here):
    """The classes and texts of a pin's label from the pin outwards."""
    parts = [("pn", name)]
    for place in here:
        parts.append(("sg", place.title))
        # the other modes are told by the signal's name
        if place.mode.startswith("AF"):
            parts.append(("md", place.mode))
        if place.label and place.label not in (name, place.title):
            parts.append(("ul", place.label))
    return parts


def fitted(parts, most):
    """The parts with at most so many letters in all; the last is cut."""
    left, found = most, []
    for kind, text in parts:
        if left < 3 and found:
            break
        found.append((kind, cut(text, left)))
        left -= len(found[-1][1]) + 1
    return found


def letters(parts):
    return sum(len(text) + 1 for _, text in parts) - 1


def label_text(parts, sign, at, font):
    """The label as text beside a pin: the pin's name stands next to the pin."""
    spans = [element("tspan", esc(text), class_=kind) for kind, text in (parts if sign > 0 else parts[::-1])]
    return element("text", " ".join(spans), x=float(at), y=font * 0.35, class_="label",
                   text_anchor="start" if sign > 0 else "end", font_size=font)


# ---- the package ----


def frame_of(names, scene, wide):
    n = len(names) // 4
    if not wide:
        pitch = 338 / (n + 1.5)
        return Frame(False, pitch, 9, 8, (n + 1.5) * pitch, (11,) * 4)
    pitch = max(16, min(26, 620 // n))
    font = min(12, pitch * 0.68)
    here = by_pin(scene.places)
    long = [letters(fitted(label_parts(name, here.get(name, [])), LETTERS_OF_LABEL)) for name in names]
    spaces = tuple(16 + 14 + width_of(max(long[side * n:side * n + n]), font) for side in range(4))
    return Frame(True, pitch, font, 16, (n + 2) * pitch, spaces)


def spots_of(names, frame):
    """The pins from pin 1 on: down the left side, along the bottom, up the right side, and back along the top."""
    n, (left, top), (right, bottom) = len(names) // 4, frame.low, frame.high
    spots = []
    for index, name in enumerate(names):
        side, place = divmod(index, n)
        far = frame.body / 2 + (place - (n - 1) / 2) * frame.pitch
        x, y, turned, sign = ((left, top + far, False, -1), (left + far, bottom, True, -1),
                              (right, bottom - far, False, 1), (right - far, top, True, 1))[side]
        spots.append(Spot(name, index + 1, x, y, turned, sign))
    return spots


def mark_of(kind, wide):
    """What tells a pad's kind without its colour."""
    return {"moved": "➜", "need": "+", "held": "×"}.get(kind, "") if wide else ""


def pin_group(spot, scene, frame):
    here, kind = by_pin(scene.places).get(spot.name, []), scene.kind(spot.name)
    parts = fitted(label_parts(spot.name, here), LETTERS_OF_LABEL)
    across = frame.pitch * (0.62 if frame.wide else 0.7)
    reach = frame.spaces[(spot.number - 1) * 4 // scene.pins_of_package] - 4 if frame.wide else frame.pad
    inside = [
        element("rect", class_="hit", x=0 if spot.sign > 0 else -reach, y=-frame.pitch / 2, width=float(reach),
                height=float(frame.pitch)),
        element("rect", class_="pad", x=0 if spot.sign > 0 else -frame.pad, y=-across / 2, width=frame.pad,
                height=float(across), rx=2),
    ]
    if mark_of(kind, frame.wide):
        inside.append(text_at(spot.sign * frame.pad / 2, 3.2, mark_of(kind, True), class_="mark", text_anchor="middle"))
    inner = "end" if spot.sign > 0 else "start"
    if frame.wide:
        inside.append(text_at(-spot.sign * 5, 3, spot.number, class_="number", text_anchor=inner))
        inside.append(label_text(parts, spot.sign, spot.sign * (frame.pad + 6), frame.font))
    elif kind == "need" and all(place.home != spot.name for place in scene.places):
        # where an arrow begins there is no room for a name
        inside.append(text_at(-spot.sign * 6, 3, cut(here[0].title, 18), class_="need-name", text_anchor=inner, font_size=9))
    elif spot.number % (scene.pins_of_package // 4) == 1:
        inside.append(text_at(-spot.sign * 4, 3, spot.number, class_="number", text_anchor=inner))
    return pin_element(spot, scene, here, kind, "".join(inside))


def pin_element(spot, scene, here, kind, inside):
    """The group of a pin; where it carries a signal it is a link to the signal's row."""
    x, y = spot.inside(PAD_INSIDE)
    about = scene.about.get(spot.name) or f"{spot.name}, pin {spot.number}: not a port pin."
    others = " ".join(row.pin for place in here for row in place.others)
    contested = " contested" if scene.hall and spot.name in scene.hall.pins() else ""
    group = element("g", element("title", esc(about)), inside, class_=f"pin {kind}{contested}", data_pin=spot.name,
                    data_about=about, data_others=others, data_x=x, data_y=y,
                    transform=f"translate({spot.x:.1f} {spot.y:.1f})" + (" rotate(-90)" if spot.turned else ""))
    if not here:
        return group
    return element("a", group, href=f"#signal-{scene.places.index(here[0])}", aria_label=about)


def body_of(frame, scene):
    (x, y), dot = frame.low, 40 if frame.wide else 26
    return "".join([
        element("rect", class_="body", x=float(x), y=float(y), width=float(frame.body), height=float(frame.body), rx=6),
        element("circle", class_="dot", cx=float(x + dot), cy=float(y + dot), r=6 if frame.wide else 4),
    ])


def part_of(frame, scene):
    """The part's name; where a set of signals has the middle, it stands higher."""
    (middle, down), size = frame.middle, 21 if frame.wide else 15
    top = frame.low[1] + (74 if frame.wide else 40) if scene.hall else down
    return text_at(middle, top, cut(scene.title[0], 24), class_="part", text_anchor="middle", font_size=size) + text_at(
        middle, top + size * 1.1, cut(scene.title[1], 36), class_="sub", text_anchor="middle", font_size=size * 0.6)


def arrow(start, end, middle, name, wide):
    """A curve inside the body from a signal's home to its pin."""
    between = ((start[0] + end[0]) / 2, (start[1] + end[1]) / 2)
    away = math.dist(between, middle) or 1
    pull = min(away * 0.6, math.dist(start, end) * 0.6 + (46 if wide else 26)) / away
    turn = (between[0] + (middle[0] - between[0]) * pull, between[1] + (middle[1] - between[1]) * pull)
    top = ((start[0] + 2 * turn[0] + end[0]) / 4, (start[1] + 2 * turn[1] + end[1]) / 4)
    path = f"M{start[0]:.1f} {start[1]:.1f}Q{turn[0]:.1f} {turn[1]:.1f} {end[0]:.1f} {end[1]:.1f}"
    # the name stands on the outer side of the bend
    out = math.dist(between, turn) or 1
    aside = ((turn[0] - between[0]) / out, (turn[1] - between[1]) / out)
    anchor = "start" if aside[0] > 0.35 else "end" if aside[0] < -0.35 else "middle"
    return element("path", class_="arrow", marker_end="url(#head)", d=path) + text_at(
        top[0] + 8 * aside[0], top[1] + 12 * aside[1] + 4, cut(name, 24), class_="arrow-name", text_anchor=anchor,
        font_size=12 if wide else 9)


def arrows(scene, frame, spots):
    at, middle = {spot.name: spot for spot in spots}, frame.middle
    far = PAD_INSIDE if frame.wide else 8
    moved = [place for place in scene.places if place.state == "moved" and place.home in at and place.pin in at]
    return "".join(arrow(at[place.home].inside(far), at[place.pin].inside(far), middle, place.title, frame.wide)
                   for place in moved)


# ---- a set of signals with too few pins ----


def pills(scene, frame):
    """The signals of the set in the middle of the body, each with its box; none where there is no room for them."""
    wanted = scene.hall.wanted
    columns = 1 if len(wanted) <= 14 or not frame.wide else 2
    font, height = (12, 24) if frame.wide else (9.5, 18)
    rows = math.ceil(len(wanted) / columns)
    if rows * (height + 4) > frame.body * 0.6:
        return
    gap = min(18 if frame.wide else 10, (frame.body * 0.6 - rows * height) / rows)
    most = int(frame.body * 0.45 / columns / width_of(1, font))
    width = width_of(max(min(len(w.named), most) for w in wanted), font) + 20
    for index, w in enumerate(wanted):
        column, row = divmod(index, rows)
        x = frame.middle[0] + (column - (columns - 1) / 2) * (width + 60)
        y = frame.middle[1] + 20 + (row - (rows - 1) / 2) * (height + gap)
        yield w, x, y, width, height, cut(w.named, most), font


def asides(wanted, far):
    """How far along its edge the line from each signal ends at each of its pins, so that no two end at one point."""
    at_pin = {}
    for index, one in enumerate(wanted):
        for pin in one.pins:
            at_pin.setdefault(pin, []).append(index)
    return {(index, pin): (place - (len(found) - 1) / 2) * min(far, 2 * far / len(found))
            for pin, found in at_pin.items() for place, index in enumerate(found)}


def hall_lines(scene, frame, spots):
    """From each signal of the set a line to each pin where it can be."""
    at, lines, boxes = {spot.name: spot for spot in spots}, [], []
    aside = asides(scene.hall.wanted, frame.pitch * 0.36)
    for index, (w, x, y, width, height, name, font) in enumerate(pills(scene, frame)):
        kind = "need" if w.need else "kept"
        for pin in (pin for pin in w.pins if pin in at):
            end = at[pin].inside(PAD_INSIDE if frame.wide else 8, aside[index, pin])
            side = 1 if end[0] > x else -1
            start, pull = (x + side * width / 2, y), max(30, abs(end[0] - x) * 0.45)
            away = at[pin].inside((PAD_INSIDE if frame.wide else 8) + (90 if frame.wide else 40), aside[index, pin])
            lines.append(element("path", class_=f"want {kind}", d=(
                f"M{start[0]:.1f} {start[1]:.1f}C{start[0] + side * pull:.1f} {start[1]:.1f} "
                f"{away[0]:.1f} {away[1]:.1f} {end[0]:.1f} {end[1]:.1f}")))
        boxes.append(element("g", element("rect", x=-width / 2, y=-height / 2, width=float(width), height=float(height),
                                          rx=height / 2), text_at(0, font * 0.36, name, text_anchor="middle", font_size=font),
                             class_=f"pill {kind}", transform=f"translate({x:.1f} {y:.1f})"))
    return "".join(lines + boxes)


# ---- a grid of ports ----


def grid_spots(scene, wide):
    """A row for each number and a column for each port; a narrow grid has the ports below each other."""
    pins = sorted(scene.port_pins, key=lambda name: (name[1], number_of(name)))
    ports = sorted({name[1] for name in pins})
    spots = []
    for name in pins:
        port, number = ports.index(name[1]), number_of(name)
        x, y = (24 + port * grid_cell(ports, wide)[0], 24 + number * 44) if wide else (18 + number * 21, 20 + port * 24)
        spots.append(Spot(name, None, float(x), float(y), False, 1))
    return spots, ports


def grid_cell(ports, wide):
    return (min(170, 1176 / len(ports)), 44) if wide else (21, 24)


def number_of(name):
    digits = ""
    for letter in name[2:]:
        if not letter.isdecimal():
            break
        digits += letter
    return int(digits or 0)


def grid_pin(spot, scene, cell, wide):
    here, kind = by_pin(scene.places).get(spot.name, []), scene.kind(spot.name)
    width, height = cell[0] - (6 if wide else 3), cell[1] - (6 if wide else 3)
    inside = [element("rect", class_="pad", x=0, y=0, width=float(width), height=float(height), rx=4)]
    if wide:
        most = int((width - 12) / width_of(1, 10.5))
        inside.append(text_at(6, 15, cut(" ".join([spot.name] + [p.mode for p in here if not p.is_held]), most),
                              class_="cell", font_size=10.5))
        named = "/".join(place.title for place in here)
        inside.append(text_at(6, 30, cut(named, most), class_="cell sg", font_size=10.5))
    return pin_element(spot, scene, here, kind, "".join(inside))


def grid_svg(scene, wide):
    spots, ports = grid_spots(scene, wide)
    cell = grid_cell(ports, wide)
    rows = 1 + max(number_of(spot.name) for spot in spots)
    size = (24 + len(ports) * cell[0], 24 + rows * cell[1]) if wide else (18 + 16 * 21, 20 + len(ports) * 24)
    at = {spot.name: (spot.x + (cell[0] - 6) / 2, spot.y + (cell[1] - 6) / 2) for spot in spots}
    moved = [place for place in scene.places if place.state == "moved" and place.home in at and place.pin in at]
    heads = [text_at(24 + k * cell[0] + 6, 14, f"Port {port}", class_="number", font_size=11) if wide
             else text_at(2, 20 + k * 24 + 14, port, class_="number", font_size=11) for k, port in enumerate(ports)]
    if not wide:
        heads += [text_at(18 + k * 21 + 9, 12, k, class_="number", text_anchor="middle", font_size=9) for k in range(16)]
    lines = [element("path", class_="arrow", marker_end="url(#head)", d=rounded([at[p.home], at[p.pin]])) for p in moved]
    return drawing("".join(heads) + "".join(grid_pin(spot, scene, cell, wide) for spot in spots), "".join(lines), size, wide,
                   "The ports of the part as a grid")


# ---- both ----


def drawing(pins, lines, size, wide, name):
    """The picture. What its lines and boxes show is told in words by the pins and above it, and is not read aloud here."""
    return element("svg", pins, element("g", class_="reach"), element("g", lines, class_="lines", aria_hidden="true"),
                   class_="wide" if wide else "narrow", viewBox=f"0 0 {size[0]:.0f} {size[1]:.0f}", role="group",
                   aria_label=name, style=f"max-width:{size[0] if wide else 560:.0f}px")


def package_svg(names, scene, wide):
    frame = frame_of(names, scene, wide)
    spots = spots_of(names, frame)
    pins = body_of(frame, scene) + "".join(pin_group(spot, scene, frame) for spot in spots)
    lines = arrows(scene, frame, spots) + (hall_lines(scene, frame, spots) if scene.hall else "")
    return drawing(pins, lines + part_of(frame, scene), frame.size, wide, "The package from above, pin by pin")


def picture(table, scene):
    """The drawing for wide and for narrow screens."""
    names = table.package_pins
    if len(names) >= 16 and len(names) % 4 == 0:
        return "".join(package_svg(names, scene, wide) for wide in (True, False))
    return "".join(grid_svg(scene, wide) for wide in (True, False))
