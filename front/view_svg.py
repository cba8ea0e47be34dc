"""Text and elements of HTML and SVG. Every text from inputs goes through `esc`: it can't end what it stands in."""
import html
import math

# a letter of the fixed-width fonts is 0.6 of their size wide; a little is left over
LETTER = 0.612


# the spaces of numbers, which do not break a line
SPACES = "\u00a0\u202f"


def is_harmless(letter):
    return letter.isprintable() or letter in SPACES


def esc(text):
    """The text as it may stand between tags and in attributes. What can't be printed is a replacement mark."""
    return html.escape("".join(letter if is_harmless(letter) else "\ufffd" for letter in str(text)))


def esc_lines(text):
    """The same for a text of several lines."""
    return "\n".join(map(esc, text.split("\n")))


def flowing(text):
    """The text between tags of HTML. The gaps within a number are no letters there: it is read aloud, and copied, as one."""
    return esc(text).replace("\u202f", '<span class="gap"></span>')


def cut(text, most):
    """The text with at most so many letters."""
    return text if len(text) <= most else text[:max(most - 1, 0)].rstrip() + "…"


def attributes(named):
    """` name="value"` for each; `_` in a name stands for `-`, and a `_` at its end is passed over."""
    written = []
    for name, value in named.items():
        if isinstance(value, float):
            value = f"{value:.1f}".removesuffix(".0")
        if value is not None and value is not False:
            name = name.rstrip("_").replace("_", "-")
            written.append(f" {name}" if value is True else f' {name}="{esc(value)}"')
    return "".join(written)


def element(name, *inside, **named):
    """An element. What is inside must be escaped."""
    return f"<{name}{attributes(named)}>{''.join(inside)}</{name}>"


# what is seen in an empty cell; a screen reader has a word of its own for one
NOTHING = '<span aria-hidden="true">–</span>'


def table_of(heads, rows):
    """A table; each row has its cells as text, of which the first heads the row, and the attributes of the row. The roles
    are told, since narrow windows show the rows as blocks, and what is shown so loses them."""
    made = []
    for (first, *cells), named in rows:
        made.append(element("tr", element("th", esc(first), scope="row", role="rowheader"), *[
            element("td", flowing(cell) or NOTHING, data_head=head, class_=None if cell else "none", role="cell")
            for head, cell in zip(heads[1:], cells)], role="row", **named))
    top = element("tr", *[element("th", head, scope="col", role="columnheader") for head in heads], role="row")
    return element("table", element("thead", top, role="rowgroup"), element("tbody", *made, role="rowgroup"), role="table")


def width_of(letters, size):
    return letters * size * LETTER


def text_at(x, y, text, **named):
    return element("text", esc(text), x=float(x), y=float(y), **named)


def rounded(points, radius=8):
    """The path of a line through the points whose corners are rounded."""
    path = [f"M{points[0][0]:.1f} {points[0][1]:.1f}"]
    for before, corner, after in zip(points, points[1:], points[2:]):
        start, end = toward(corner, before, radius), toward(corner, after, radius)
        path.append(f"L{start[0]:.1f} {start[1]:.1f}Q{corner[0]:.1f} {corner[1]:.1f} {end[0]:.1f} {end[1]:.1f}")
    path.append(f"L{points[-1][0]:.1f} {points[-1][1]:.1f}")
    return "".join(path)


def toward(start, end, far):
    """The point that lies so far from the first to the second, and at most half way."""
    length = math.dist(start, end) or 1
    part = min(far, length / 2) / length
    return start[0] + (end[0] - start[0]) * part, start[1] + (end[1] - start[1]) * part


def hertz(value):
    """`168 000 000 Hz`, with spaces that do not break a line."""
    return f"{value:,}".replace(",", "\u202f") + "\u00a0Hz"


def megahertz(value):
    """`42 MHz`, `1.5 MHz`; cut after six places, which are whole hertz."""
    whole, part = divmod(value, 1_000_000)
    return f"{whole}" + (f".{part:06}".rstrip("0") if part else "") + "\u00a0MHz"


def counted(number, one, many=None):
    return f"{number} {one if number == 1 else many or one + 's'}"
