"""The clock tree as a diagram, from the sources to the buses and timers, and as a table."""
from dataclasses import dataclass

from view_limits import NODE_OF_LIMIT, bounds_of
from view_svg import cut, element, hertz, rounded, table_of, text_at, width_of

HSI = 16_000_000
TITLES = {"HSI": "HSI", "HSE": "HSE", "VCO_IN": "VCO input", "VCO": "VCO", "SYSCLK": "SYSCLK", "HCLK": "HCLK",
          "PCLK1": "PCLK1", "APB1TIM": "APB1 timers", "PCLK2": "PCLK2", "APB2TIM": "APB2 timers", "CLK48": "CLK48",
          "FLASH": "Flash"}


@dataclass(frozen=True)
class Cell:
    """A node of the diagram: its value as text, how it is made, whether either is another than before, what both were, and
    its limit."""

    name: str
    value: str
    revalued: bool
    made: str
    remade: bool
    was: str
    limit: str
    near: str
    share: float
    state: str
    words: str


def system_made(clock):
    return f"VCO ÷ {clock.pll[3]}" if clock.source == "PLL" and clock.pll else clock.source


def made_of(clock):
    """How each node comes from the one before it."""
    pll = clock.pll
    return {
        "HSI": "internal", "HSE": clock.hse[0] if clock.hse else "",
        "VCO_IN": f"{pll[0]} ÷ {pll[1]}" if pll else "", "VCO": f"× {pll[2]}" if pll else "",
        "SYSCLK": system_made(clock), "CLK48": f"VCO ÷ {pll[4]}" if pll else "",
        "HCLK": f"SYSCLK ÷ {clock.ahb}", "PCLK1": f"HCLK ÷ {clock.apb1}", "PCLK2": f"HCLK ÷ {clock.apb2}",
        "APB1TIM": f"PCLK1 × {1 if clock.apb1 == 1 else 2}", "APB2TIM": f"PCLK2 × {1 if clock.apb2 == 1 else 2}",
    }


def values_of(clock):
    return {"HSI": HSI, "HSE": clock.hse[1] if clock.hse else None, **clock.nodes}


def was_of(name, new, old):
    """What the project's own tree has in the place of a node, or nothing where it is the same."""
    made, value = made_of(old)[name], values_of(old)[name]
    if old is new or (made, value) == (made_of(new)[name], values_of(new)[name]):
        return ""
    return "off" if value is None else f"{made}, {hertz(value)}" if made != made_of(new)[name] else hertz(value)


def cell_of(name, clock, old, bound, broken):
    value, was = values_of(clock)[name], was_of(name, clock, old)
    runs = value is not None
    is_broken = NODE_OF_LIMIT.get(broken) == name or bool(runs and bound and not bound.is_kept(value))
    state = "broken" if is_broken else "off" if not runs else "changed" if was else "same"
    near = "" if not (runs and bound) else "broken" if is_broken else bound.near(value)
    made = made_of(clock)[name]
    return Cell(name, hertz(value) if runs else "off", value != values_of(old)[name], made, made != made_of(old)[name], was,
                bound.short if bound and runs else "", near, bound.share(value) if bound and runs else None, state,
                bound.words if bound else "")


def waits_of(clock):
    return "no row" if clock.wait == "none" else f"{clock.wait} wait" + ("" if clock.wait == "1" else "s")


def power_of(clock):
    """The power step in as few letters as the node has room for."""
    return "over-drive" if clock.over else f"scale {clock.vos}"


def old_flash(clock, old):
    """What of the flash and its supply was otherwise."""
    waits = [] if old.wait == clock.wait else [waits_of(old)]
    if old.step == clock.step:
        return ", ".join(waits)
    return ", ".join(waits + ["no over-drive" if clock.over and old.vos == clock.vos else power_of(old)])


def flash_cell(clock, old, broken):
    was = old_flash(clock, old)
    is_broken = clock.wait == "none" or NODE_OF_LIMIT.get(broken) == "FLASH"
    state = "broken" if is_broken else "changed" if was else "same"
    supply = f"scale {clock.vos}, {clock.vdd} mV" if clock.over else f"supply {clock.vdd} mV"
    return Cell("FLASH", waits_of(clock), old.wait != clock.wait, power_of(clock), old.step != clock.step, was, supply, "", None, state,
                f"wait states of the flash at {clock.vdd} mV; the regulator's voltage scale {clock.scale}")


def cells_of(table, clock, old, ips, wishes, broken):
    """The nodes of a tree beside those of the project's own tree."""
    bounds = bounds_of(table, clock, ips, wishes)
    names = [name for name in TITLES if name != "FLASH"]
    cells = {name: cell_of(name, clock, old, bounds.get(name), broken) for name in names}
    cells["FLASH"] = flash_cell(clock, old, broken)
    return cells


def changes_of(clock, old):
    """What differs from the project, as pairs of name, old and new value."""
    def settings(c):
        named = dict(zip(("PLL source", "PLLM", "PLLN", "PLLP", "PLLQ"), c.pll or ("off",) + ("",) * 4))
        return {"SYSCLK source": c.source, **named, "AHB divider": c.ahb, "APB1 divider": c.apb1, "APB2 divider": c.apb2,
                "voltage scale": c.scale if c.over else c.vos}
    before, after = settings(old), settings(clock)
    return [(name, before[name], after[name]) for name in after if before[name] != after[name] and after[name] != ""]


# ---- the diagram ----


@dataclass(frozen=True)
class Layout:
    """Where the nodes stand, in columns and rows, and how large a node is."""

    width: int
    height: int
    at: dict
    size: tuple

    def left(self, name, low=0.5):
        return self.at[name][0], self.at[name][1] + self.height * low

    def right(self, name, low=0.5):
        return self.at[name][0] + self.width, self.at[name][1] + self.height * low

    def top(self, name, part=0.5):
        return self.at[name][0] + self.width * part, self.at[name][1]

    def bottom(self, name, part=0.5):
        return self.at[name][0] + self.width * part, self.at[name][1] + self.height


def wide_layout(height):
    column, row = [4 + 212 * k for k in range(6)], [4 + (height + 22) * k for k in range(4)]
    middle = (row[1] + row[2]) / 2
    at = {"HSI": (column[0], row[0]), "HSE": (column[0], row[3]), "VCO_IN": (column[1], middle), "VCO": (column[2], middle),
          "SYSCLK": (column[3], row[0]), "CLK48": (column[3], row[3]), "HCLK": (column[4], row[0]),
          "FLASH": (column[4], row[3]), "PCLK1": (column[5], row[0]), "APB1TIM": (column[5], row[1]),
          "PCLK2": (column[5], row[2]), "APB2TIM": (column[5], row[3])}
    return Layout(168, height, at, (column[5] + 172, row[3] + height + 4))


def narrow_layout(height):
    pairs = [("HSI", "HSE"), ("VCO_IN", "VCO"), ("SYSCLK", "CLK48"), ("HCLK", "FLASH"), ("PCLK1", "PCLK2"),
             ("APB1TIM", "APB2TIM")]
    at = {name: (14 + 178 * k, 4 + (height + 26) * row) for row, pair in enumerate(pairs) for k, name in enumerate(pair)}
    return Layout(164, height, at, (358, 4 + (height + 26) * 6 - 22))


def wide_edges(at, clock):
    """The ways of the clocks as points, each with whether it is in use."""
    feeds = clock.pll[0] if clock.pll else None
    far = at.right("VCO")[0]
    yield [at.right("HSI", 0.35), at.left("SYSCLK", 0.35)], clock.source == "HSI"
    yield [at.right("HSE", 0.72), (far + 14, at.right("HSE", 0.72)[1]), (far + 14, at.left("SYSCLK", 0.85)[1]),
           at.left("SYSCLK", 0.85)], clock.source == "HSE"
    for name, low in (("HSI", 0.35), ("HSE", 0.65)):
        start, end = at.right(name, 0.65 if name == "HSI" else 0.35), at.left("VCO_IN", low)
        yield [start, (start[0] + 22, start[1]), (start[0] + 22, end[1]), end], feeds == name
    yield [at.right("VCO_IN"), at.left("VCO")], bool(feeds)
    for name, low, used in (("SYSCLK", 0.6, clock.source == "PLL"), ("CLK48", 0.4, bool(feeds))):
        start, end = at.right("VCO", 0.4 if name == "SYSCLK" else 0.6), at.left(name, low)
        yield [start, (far + 28, start[1]), (far + 28, end[1]), end], used
    yield [at.right("SYSCLK"), at.left("HCLK")], True
    yield [at.right("HCLK"), at.left("PCLK1")], True
    start, end = at.right("HCLK"), at.left("PCLK2")
    yield [start, (start[0] + 22, start[1]), (start[0] + 22, end[1]), end], True
    yield [at.bottom("HCLK"), at.top("FLASH")], True
    yield [at.bottom("PCLK1"), at.top("APB1TIM")], True
    yield [at.bottom("PCLK2"), at.top("APB2TIM")], True


def narrow_edges(at, clock):
    feeds = clock.pll[0] if clock.pll else None

    def down(start, end, part=0.5, to=0.5):
        a, b = at.bottom(start, part), at.top(end, to)
        return [a, b] if a[0] == b[0] else [a, (a[0], (a[1] + b[1]) / 2), (b[0], (a[1] + b[1]) / 2), b]
    if feeds:
        yield down(feeds, "VCO_IN"), True
        yield [at.right("VCO_IN"), at.left("VCO")], True
        yield down("VCO", "CLK48"), True
    if clock.source == "PLL":
        yield down("VCO", "SYSCLK", 0.4), True
    else:
        start, end = at.bottom(clock.source, 0.1), at.left("SYSCLK")
        yield [start, (start[0], start[1] + 8), (5, start[1] + 8), (5, end[1]), end], True
    yield down("SYSCLK", "HCLK"), True
    yield [at.right("HCLK"), at.left("FLASH")], True
    yield down("HCLK", "PCLK1"), True
    yield down("HCLK", "PCLK2", 0.6), True
    yield down("PCLK1", "APB1TIM"), True
    yield down("PCLK2", "APB2TIM"), True


def bar(cell, width, y):
    long = width - 20
    return element("rect", class_="track", x=10, y=float(y), width=long, height=4, rx=2) + element(
        "rect", class_="share", x=10, y=float(y), width=float(max(4, long * cell.share)), height=4, rx=2)


def fit(text, size, room):
    return cut(text, int(room / width_of(1, size)))


def node(cell, at, has_old):
    x, y = at.at[cell.name]
    width, title = at.width, TITLES[cell.name]
    room = width - 20 - width_of(len(title) + 1, 12)
    # where there is little room, how it is made stands without what it is made from
    made = cell.made if width_of(len(cell.made), 10.5) <= room else fit(cell.made.partition(" ")[2], 10.5, room)
    inside = [
        element("rect", class_="box", width=width, height=at.height, rx=8),
        text_at(10, 17, title, class_="name", font_size=12),
        text_at(width - 10, 17, made, class_="made new" if cell.remade else "made", text_anchor="end", font_size=10.5),
        text_at(10, 35, cell.value, class_="value new" if cell.revalued else "value", font_size=13),
    ]
    beside = cell.near not in ("broken", "exact") and width_of(len(cell.limit) + 1 + len(cell.near), 10) < width - 20
    if not beside and cell.near not in ("", "at its most", "at its least"):
        inside.append(text_at(width - 10, 35, cell.near, class_="near", text_anchor="end", font_size=10))
    if cell.was:
        inside.append(text_at(10, 49, fit(cell.was, 9.5, width - 20), class_="was", font_size=9.5))
    low = at.height - (22 if has_old else 21)
    if cell.share is not None:
        inside.append(bar(cell, width, low))
    if cell.limit:
        inside.append(text_at(10, at.height - 6, fit(cell.limit, 10, width - 20), class_="limit", font_size=10))
        if beside and cell.near:
            inside.append(text_at(width - 10, at.height - 6, cell.near, class_="near", text_anchor="end", font_size=10))
    return element("g", *inside, class_=f"node {cell.state}", transform=f"translate({x:.0f} {y:.0f})")


def diagram(cells, clock, wide):
    has_old = any(cell.was for cell in cells.values())
    at = (wide_layout if wide else narrow_layout)(80 if has_old else 68)
    edges = sorted((wide_edges if wide else narrow_edges)(at, clock), key=lambda edge: edge[1])
    lines = [element("path", class_="edge used" if used else "edge", d=rounded(points)) for points, used in edges]
    nodes = [node(cell, at, has_old) for cell in cells.values()]
    return element("svg", *lines, *nodes, class_="wide" if wide else "narrow", role="img",
                   aria_label="The clock tree; the table below it has the same values",
                   viewBox=f"0 0 {at.size[0]:.0f} {at.size[1]:.0f}", style=f"max-width:{at.size[0] if wide else 560:.0f}px")


def clock_pictures(cells, clock):
    return diagram(cells, clock, True) + diagram(cells, clock, False)


def clock_table(cells):
    """The same values in words."""
    rows = []
    for cell in cells.values():
        value = cell.value + (f"; before: {cell.was}" if cell.was else "")
        near = "the limit is broken" if cell.near == "broken" else cell.near
        rows.append(([TITLES[cell.name], value, cell.made, cell.words or "none", near], {"class_": cell.state}))
    return table_of(("Node", "Value", "Made from", "Limit", "How near"), rows)
