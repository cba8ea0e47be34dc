"""A table as a person sees it, and where in its file a path stands. It refuses nothing: the proved program does that."""
import json
import re


class Table:
    def __init__(self, file, data):
        self.file = file
        self.data = data if isinstance(data, dict) else {}
        self.pins = [name for name in self.data.get("pins", []) if isinstance(name, str)]
        entries = [entry for entry in self.data.get("signals", []) if isinstance(entry, dict)]
        self.signals = {entry["name"]: entry for entry in entries if isinstance(entry.get("name"), str)}

    def rows(self, signal):
        """The pins of a signal, each with its alternate function or None."""
        entry = self.signals.get(signal, {})
        return [(at, None) if isinstance(at, str) else (at[0], at[1]) for at in entry.get("at", [])]

    def at_pin(self, pin):
        """The signals that can be at a pin."""
        return [name for name in self.signals if any(at == pin for at, _ in self.rows(name))]

    def use(self, signal):
        return self.signals.get(signal, {}).get("use")

    def same_pin(self, pin):
        """The table's pins that have the port and number of this name."""
        return [name for name in self.pins if place_of(name) is not None and place_of(name) == place_of(pin)]


def place_of(pin):
    """Port and number of a pin's name, or None."""
    found = re.match(r"P([A-K])(\d{1,2})(?!\d)", pin)
    return (found[1], int(found[2])) if found else None


def read(file):
    with open(file, "rb") as stream:
        return Table(file, json.loads(stream.read().decode("utf-8", "surrogateescape")))


def dma_requests(file):
    """The names of the table's DMA requests; none where it has no list of them."""
    requests = read(file).data.get("dma", [])
    return [request["name"] for request in requests if isinstance(request, dict) and isinstance(request.get("name"), str)]


def row_text(row):
    pin, number = row
    return pin if number is None else f"{pin} (AF{number})"


# ---- where a path stands ----

BLANK = re.compile(r"[ \t\r\n]*")
TEXT = re.compile(r'"(?:\\.|[^"\\])*"', re.DOTALL)
PLAIN = re.compile(r"[^\s,\]}]+")


def spans(text):
    """For each path of a JSON text the first and the last place of its value. The text must be good JSON."""
    found = {}
    end_of(text, BLANK.match(text).end(), "", found)
    return found


def end_of(text, place, path, found):
    """Puts the spans of the value at `place` and of all in it to `found`; where the value ends."""
    start, first = place, text[place]
    if first in "{[":
        place = members_end(text, place, path, found)
    else:
        place = (TEXT if first == '"' else PLAIN).match(text, place).end()
    found[path] = (start, place)
    return place


def members_end(text, place, path, found):
    is_object, number = text[place] == "{", 0
    place = BLANK.match(text, place + 1).end()
    while text[place] not in "}]":
        name = str(number)
        if is_object:
            key = TEXT.match(text, place)
            name = json.loads(key[0])
            place = BLANK.match(text, key.end()).end() + 1
            place = BLANK.match(text, place).end()
        place = BLANK.match(text, end_of(text, place, f"{path}/{name}", found)).end()
        if text[place] == ",":
            place = BLANK.match(text, place + 1).end()
        number += 1
    return place + 1


def nearest_span(text, path):
    """The span of the path, or of the innermost thing around it that is there; and that thing's path."""
    found = spans(text)
    while path and path not in found:
        path = path.rpartition("/")[0]
    return path, found.get(path, (0, 0))
