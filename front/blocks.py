"""Blocks of a message: what is wrong, where, the line itself, and what to do. Bytes from inputs come out harmless."""
import os
import sys
from typing import NamedTuple

WIDTH = 100
COLOURS = {"error": "1;31", "note": "1;36", "help": "1;32", "edge": "1;34"}


class Place(NamedTuple):
    """A line of a file, and the part of it to be marked, in bytes. Line 0 has no number; without text it is the file alone."""

    file: str
    line: int = 0
    text: bytes = b""
    start: int = 0
    end: int = 0


class Block(NamedTuple):
    title: str
    place: Place | None = None
    notes: tuple = ()
    helps: tuple = ()


def harmless(text):
    """The text with everything that a terminal might take as a command spelled out."""
    if isinstance(text, bytes):
        text = text.decode("utf-8", "surrogateescape")
    return "".join(letter if letter.isprintable() else spelled(letter) for letter in text)


def spelled(letter):
    number = ord(letter)
    if 0xDC80 <= number <= 0xDCFF:
        return f"\\x{number - 0xDC00:02x}"
    return f"\\x{number:02x}" if number < 0x100 else f"\\u{{{number:x}}}"


def quoted(text, most=80):
    """The text between backquotes, cut where it is long."""
    clean = harmless(text)
    return "`" + (clean if len(clean) <= most else clean[: most - 2] + "..") + "`"


def listed(words, most=8):
    """The words with commas; of many, the first ones."""
    words = [harmless(word) for word in words]
    return ", ".join(words[:most]) + (f" and {len(words) - most} more" if len(words) > most else "")


def marked(place):
    """The line and the marks below it, both cut to the part around what is marked."""
    before = harmless(place.text[: place.start])
    inside = harmless(place.text[place.start : place.end])
    after = harmless(place.text[place.end :])
    if len(before) > WIDTH // 2:
        before = ".." + before[-(WIDTH // 2) :]
    if len(inside) > WIDTH // 2:
        inside, after = inside[: WIDTH // 2] + "..", ""
    room = max(WIDTH - len(before) - len(inside), 4)
    if len(after) > room:
        after = after[: room - 2] + ".."
    return before + inside + after, " " * len(before) + "^" * max(len(inside), 1)


def lines_of(block, paint):
    """The lines of a block; `paint(kind, text)` gives the text its colour."""
    yield paint("error", "error:") + " " + block.title
    edge = " "
    if block.place is not None:
        place = block.place
        number = str(place.line) if place.line else ""
        edge = " " * (len(number) + 1) if number or not place.text else "  "
        at = f":{place.line}" if place.line else ""
        yield paint("edge", edge[1:] + "-->") + f" {harmless(place.file)}{at}"
        if place.line or place.text:
            text, marks = marked(place)
            yield paint("edge", f"{number or ' '} |") + f" {text}".rstrip()
            if place.end > place.start:
                yield paint("edge", f"{edge}|") + " " + paint("error", marks)
    for kind, texts in (("note", block.notes), ("help", block.helps)):
        for text in texts:
            yield edge + paint("edge", "=") + " " + paint(kind, kind + ":") + " " + text


def is_colour_due(stream):
    return stream.isatty() and not os.environ.get("NO_COLOR") and os.environ.get("TERM") != "dumb"


def painter(is_colour):
    if not is_colour:
        return lambda kind, text: text
    return lambda kind, text: f"\x1b[{COLOURS[kind]}m{text}\x1b[0m"


def tell(block, stream=None):
    stream = stream or sys.stderr
    stream.write("".join(line + "\n" for line in lines_of(block, painter(is_colour_due(stream)))))
    stream.flush()
