"""The page: what fits or why not, the package, the signals, the clock tree, the C text, and what of it is proved."""
import base64
import collections
import hashlib
import pathlib
from dataclasses import dataclass

from view_board import by_pin
from view_clock import changes_of, clock_pictures, clock_table
from view_limits import LIMITS
from view_package import Scene, picture
from view_svg import counted, element, esc, esc_lines, flowing, table_of
from view_words import abouts, closing_words, hall_words, moves, part_of, verdict, where, who, why_counted

HERE = pathlib.Path(__file__).resolve().parent
KINDS = [("kept", "kept at its pin"), ("moved", "moved, with an arrow from its home"), ("need", "placed for a need"),
         ("held", "held: nothing is placed there"), ("free", "free"), ("power", "power, reset and boot")]
MARKER = ('<svg class="defs" width="0" height="0" aria-hidden="true"><defs><marker id="head" viewBox="0 0 10 10" refX="8" '
          'refY="5" markerWidth="7" markerHeight="7" orient="auto-start-reverse"><path d="M0 0L10 5L0 10z"/></marker>'
          '</defs></svg>')
HELP = "Point at a pin, or walk with the arrow keys: the other pins where its signal could be, and who is there."


@dataclass(frozen=True)
class View:
    """All that the page shows. `refuted` tells that no choice meets every limit; `report` is None then. `broken` is the
    first limit that the project's own tree breaks, or None."""

    name: str
    words: tuple
    table: object
    project: object
    places: list
    report: object
    refuted: bool
    hall: object
    closing: tuple
    explanation: str
    cells: dict
    clock: object
    old: object
    broken: int
    note: str


def section(name, title, *inside):
    return element("section", element("h2", esc(title), id=f"{name}-head"), *inside, id=name,
                   aria_labelledby=f"{name}-head")


# ---- the head ----


def moved_item(place, view):
    label = f" “{place.label}”" if place.label else ""
    return (f"<b>{esc(place.title)}</b>{esc(label)} moves from {old(where(view.table, place.home))} "
            f"to <b>{esc(where(view.table, place.pin))}</b>")


def need_item(place, view):
    return f"<b>{esc(place.title)}</b>, a need, is at <b>{esc(where(view.table, place.pin))}</b> as {esc(place.mode)}"


def old(text):
    """Struck through to the eye alone: with an element for that, a screen reader says where it begins and ends."""
    return element("span", esc(text), class_="old")


def changed_item(name, before, new):
    return f"{esc(name)} changes from {old(before)} to <b>{esc(new)}</b>" if before != "" else f"{esc(name)} is <b>{esc(new)}</b>"


def change_items(view):
    """What is not as the project has it."""
    items = [moved_item(place, view) for place in moves(view)]
    items += [need_item(place, view) for place in view.places if place.state == "need"]
    if view.report:
        changed = changes_of(view.clock, view.old)
        items += [changed_item(*one) for one in changed]
    if view.report and view.broken:
        items.append(f"The project's own tree breaks limit {view.broken}: {esc(LIMITS.get(view.broken, ''))}.")
    return element("ul", *[element("li", item) for item in items]) if items and not view.refuted else ""


def facts(view):
    found = [("Part", f"{part_of(view)}, {view.table.package}"), ("Options", " ".join(view.words) or "none")]
    if view.report:
        rank = view.report.rank
        found += [("Changes", f"{rank.cost}, and no choice that meets every limit needs fewer"),
                  ("Choices in all", f"{rank.choices:,}".replace(",", "\u202f"))]
    return element("dl", *[element("div", element("dt", esc(name)), element("dd", flowing(value))) for name, value in found])


def head(view):
    kind, title, said = verdict(view)
    answer = element("div", element("h2", title), element("p", esc(said)), change_items(view),
                     element("p", esc(view.note)) if view.note else "", class_=f"verdict {kind}")
    return element("header", element("p", "Toarnyk", class_="brand"), element("h1", esc(view.name)), answer, facts(view))


# ---- where nothing fits ----


def closings(view):
    """How the refutation closes its cases, the most frequent way first."""
    found = collections.Counter(view.closing).most_common()
    return element("ul", *[element("li", f"{counted(count, 'case')} by {esc(closing_words(*way))}") for way, count in found])


def hall_table(view):
    rows = []
    for wanted in view.hall.wanted:
        pins = "; ".join(where(view.table, pin) for pin in wanted.pins)
        rows.append(([wanted.named, pins, why_counted(wanted)], {}))
    return element("p", esc(hall_words(view))) + table_of(("Signal", "Can be at", "Why it counts"), rows)


def why(view):
    if not view.refuted:
        return ""
    told = element("pre", esc_lines(view.explanation), class_="told", tabindex="0") if view.explanation else ""
    closed = closings(view) if len(view.closing) > 1 or not view.hall else ""
    return section("why", "Why nothing fits", told, hall_table(view) if view.hall else "", closed)


# ---- the package and its signals ----


def legend(view):
    """What the colours mean. Who does not see them is told the same by each pin."""
    kinds = {place.kind for place in view.places} | {"free"} | ({"power"} if view.table.package_pins else set())
    items = [(kind, words) for kind, words in KINDS if kind in kinds]
    if view.hall:
        items += [("contested", "wanted by too many"), ("wanting", "a signal that wants it")]
        items += [("need of-set", "a need that wants it")] if any(wanted.need for wanted in view.hall.wanted) else []
    return element("ul", *[element("li", element("span", class_=f"swatch {kind}"), esc(words)) for kind, words in items],
                   class_="legend", aria_hidden="true")


def board(view):
    scene = Scene((part_of(view), f"{view.table.package}, from above"), view.places, view.hall, abouts(view),
                  frozenset(view.table.pins), len(view.table.package_pins))
    return section("package", "Package" if view.table.package_pins else "Ports",
                   element("p", HELP, class_="only-script hint"), legend(view),
                   element("div", picture(view.table, scene), class_="drawing", id="drawing"),
                   element("p", id="about", aria_hidden="true", class_="only-script"))


def signals(view):
    if not view.places:
        return ""
    here, numbers, rows = by_pin(view.places), view.table.numbers(), []
    for index, place in enumerate(view.places):
        others = "; ".join(f"{row.pin} ({who(here.get(row.pin, []))})" for row in place.others)
        state = f"moved from {place.home}" if place.state == "moved" else place.kind
        rows.append(([place.title, place.pin, numbers.get(place.pin, ""), place.mode or "none there",
                      state + (", locked" if place.locked else ""), place.label, others],
                     {"class_": place.kind, "id": f"signal-{index}"}))
    heads = ("Signal", "Pin", "No.", "Mode", "State", "Label", "Could also be at")
    return section("signals", "Signals", table_of(heads, rows))


# ---- the clocks and the C text ----


def clocks(view):
    if not view.cells:
        return ""
    limit = (f"it breaks limit {view.broken}: {LIMITS.get(view.broken, '')}." if view.broken
             else "it meets every limit of the part.")
    own = element("p", esc(f"This is the project's own tree; {limit}")) if view.report is None else ""
    table = element("details", element("summary", "The same as a table"), clock_table(view.cells))
    return section("clock", "Clock tree", own,
                   element("div", clock_pictures(view.cells, view.clock), class_="drawing"), table)


def code(view):
    if not view.report:
        return ""
    button = element("button", "Copy", id="copy", type="button", class_="only-script")
    said = "Call <code>board_init</code> once, first thing after reset. "
    return section("code", "C text", element("p", said, button, element("span", id="copied", aria_live="polite")),
                   element("pre", element("code", esc_lines(view.report.code)), id="text", tabindex="0",
                           aria_label="C text"))


# ---- the whole ----


def foot(view):
    proved = ("the refutation, which says that no choice meets every limit" if view.refuted
              else "the placement, its rank, the clock tree in hertz and the C text" if view.report
              else "the placement, and the project's clock tree in hertz")
    return element(
        "footer", element("h2", "What of this is proved"),
        element("p", f"Printed by the proved program, and shown here as it printed it: {proved}. That the table is right "
                     "about the silicon is not proved; compare pins with the data sheet before a board is made."),
        element("p", "Drawn around it by a script that no proof covers: the pictures and their colours, pin numbers, "
                     "labels, the other pins of a signal, and how near a node is to its limit."))


def page(view):
    """The whole page. Its policy lets it load nothing and run no script but its own."""
    style, script = (HERE / "view_page.css").read_text(), (HERE / "view_page.js").read_text()
    digest = base64.b64encode(hashlib.sha256(script.encode()).digest()).decode()
    policy = (f"default-src 'none'; style-src 'unsafe-inline'; script-src 'sha256-{digest}'; base-uri 'none'; "
              "form-action 'none'")
    top = (f'<meta charset="utf-8"><meta http-equiv="Content-Security-Policy" content="{policy}">'
           '<meta name="viewport" content="width=device-width, initial-scale=1">'
           '<meta name="color-scheme" content="light dark">'
           f"<title>{esc(view.name)} – Toarnyk</title><style>{style}</style>")
    main = element("main", why(view), board(view), clocks(view), signals(view), code(view))
    return (f'<!DOCTYPE html>\n<html lang="en"><head>{top}</head><body>{MARKER}{head(view)}{main}{foot(view)}'
            f"<script>{script}</script></body></html>\n")
