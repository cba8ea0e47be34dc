"""What is wrong with a table: the path of its first fault as a line of its file."""
import json
import re

import blocks
import limits
import table as tables

# what docs/FORMATS.md says of a path, by the path's pattern
FORMS = (
    (r"/version", "1 or 2"),
    (r"/names", "a list of the part's names, at least one"),
    (r"/package", "a text without blanks, of 1 to 64 characters"),
    (r"/pins(/\d+)?", "a list of names that begin with the port's letter and number, such as PA0-WKUP, none twice"),
    (r"/signals/\d+/use", "alt, input, output, analog, exti or osc"),
    (r"/signals/\d+/at(/\d+)?", "for `alt` pairs of a pin of /pins and a number 0 to 15; for `osc` and `analog` pins; else absent"),
    (r"/signals/\d+/drain", "true or false"),
    (r"/ips/\d+/clock48", "none, exact or most"),
    (r"/ips/\d+/floor", "a number of hertz"),
    (r"/ips/\d+/marks", "a list of texts"),
    (r"/clock/m", "a pair of least and greatest, within 2 to 63"),
    (r"/clock/n", "a pair of least and greatest, within 50 to 432"),
    (r"/clock/q", "a pair of least and greatest, within 2 to 15"),
    (r"/clock/p(/\d+)?", "an ascending list within 2, 4, 6, 8"),
    (r"/clock/hpre(/\d+)?", "an ascending list within 1, 2, 4, 8, 16, 64, 128, 256, 512, with 1 in it"),
    (r"/clock/ppre[12](/\d+)?", "an ascending list within 1, 2, 4, 8, 16, with 1 in it"),
    (r"/clock/vos(/\d+)?", "an ascending list within 1, 2, or in version 2 within 1 to 5, with 1 in it, and 5 only with 2"),
    (r"/limits/crystal", "a pair of hertz within 4,000,000 to 26,000,000"),
    (r"/limits/bypass", "a pair of hertz within 1,000,000 to 50,000,000"),
    (r"/limits/vco_in", "a pair of hertz within 1,000,000 to 2,000,000"),
    (r"/limits/vco", "a pair of hertz within 100,000,000 to 432,000,000"),
    (r"/limits/sysclk", "a number of hertz up to 168,000,000"),
    (r"/limits/pclk1", "a number of hertz up to 42,000,000"),
    (r"/limits/pclk2", "a number of hertz up to 84,000,000"),
    (r"/limits/over", "an object of sysclk, pclk1 and pclk2, in version 2"),
    (r"/limits/over/sysclk", "a number of hertz up to 180,000,000"),
    (r"/limits/over/pclk1", "a number of hertz up to 45,000,000"),
    (r"/limits/over/pclk2", "a number of hertz up to 90,000,000"),
    (r"/scales", "one object for each step of /clock/vos, in its order"),
    (r"/scales/\d+/vos", "the step of /clock/vos at this place"),
    (r"/scales/\d+/max", "a number of hertz up to 168,000,000, or 180,000,000 at steps 4 and 5"),
    (r"/flash/\d+/rows(/\d+)?", "a strictly ascending list of hertz"),
    (r"/.*/name", "a text without blanks, of 1 to 64 characters, none twice"),
)

PROJECT_START = re.compile(rb"(?:#MicroXplorer|(?:#.*\r?\n|\r?\n)*[\w.\-]+(?: [\w.\-]+)*=)")


def kind_of(content):
    """What a file's bytes look like: table, project, proof, bom, wide, empty, or something else."""
    if content.startswith(b"\xef\xbb\xbf"):
        return "bom"
    if content.startswith((b"\xff\xfe", b"\xfe\xff")):
        return "wide"
    if not content.strip():
        return "empty"
    if content.lstrip().startswith((b"{", b"[")):
        return "table"
    if re.search(rb"^proof 1$", content, re.MULTILINE):
        return "proof"
    return "project" if PROJECT_START.match(content) else "other"


# what is said of bytes that stand before or in place of a text; a byte order mark counts as wrong for the program
STRANGE = {
    "bom": ("the file begins with a byte order mark (EF BB BF)", "save it as UTF-8 without one"),
    "wide": ("the file is UTF-16", "save it as UTF-8"),
    "empty": ("the file is empty", "is it the file that you meant?"),
}


def strange(file, content):
    """The block of a file that is not of the encoding that any input has; None where it is."""
    kind = kind_of(content)
    if kind not in STRANGE:
        return None
    title, help_text = STRANGE[kind]
    return blocks.Block(title, blocks.Place(file), (), (help_text,))


def content_of(file):
    try:
        with open(file, "rb") as stream:
            return stream.read()
    except OSError:
        return b""


def block(file, project, line):
    content = content_of(file)
    if line == "tables: not json":
        return not_json(file, project, content)
    found = re.match(r"tables: (missing|field|repeated) (/.*)$", line)
    if found:
        return at_path(file, content.decode("utf-8", "surrogateescape"), found[1], found[2])
    found = re.match(r"tables: reset (\d+)$", line)
    return reset(file, int(found[1])) if found else None


def not_json(file, project, content):
    odd = strange(file, content)
    if odd:
        return odd
    kind = kind_of(content)
    if kind in ("project", "proof"):
        swapped = kind == "project" and kind_of(content_of(project)) == "table"
        helps = ["the table is the first name, the project the second"]
        if swapped:
            helps.append(f"swap them: {blocks.quoted(project)} {blocks.quoted(file)}")
        return blocks.Block(f"a {kind} is given as table", blocks.Place(file), (), tuple(helps))
    try:
        json.loads(content)
    except json.JSONDecodeError as fault:
        raw = (content.decode("utf-8", "replace").split("\n") + [""])[fault.lineno - 1].rstrip("\r")
        start = len(raw[: fault.colno - 1].encode())
        return blocks.Block("the table is not JSON", blocks.Place(file, fault.lineno, raw.encode(), start, start + 1),
                            (fault.msg[0].lower() + fault.msg[1:],), ("docs/FORMATS.md has the form of a table",))
    except (ValueError, RecursionError):
        pass
    return blocks.Block("the table is not JSON", blocks.Place(file), (), ("docs/FORMATS.md has the form of a table",))


def at_path(file, text, what, path):
    """The line of the file where the path stands, or where it would."""
    try:
        at, (start, end) = tables.nearest_span(text, path)
    except (ValueError, IndexError, AttributeError, RecursionError):
        return None
    title = {"missing": "the table lacks " + blocks.quoted(path), "field": f"{blocks.quoted(path)} is not of its form",
             "repeated": f"{blocks.quoted(path)} stood before"}[what]
    line_start = text.rfind("\n", 0, start) + 1
    line_end = text.find("\n", start)
    raw = text[line_start : line_end if line_end >= 0 else len(text)].rstrip("\r")
    end = min(end, line_start + len(raw))
    encoded = [part.encode("utf-8", "surrogateescape") for part in (raw, raw[: start - line_start], raw[: end - line_start])]
    place = blocks.Place(file, text.count("\n", 0, start) + 1, encoded[0], len(encoded[1]), len(encoded[2]))
    if what == "missing":
        place = place._replace(end=place.start + 1)
    form = next((form for pattern, form in FORMS if re.fullmatch(pattern, path)), None)
    notes = (f"its form: {form}",) if form else ()
    return blocks.Block(title, place, notes, ("docs/FORMATS.md has the form of a table",))


def reset(file, number):
    return blocks.Block("by this table the chip's own state after reset, 16 MHz from HSI, is not allowed",
                        blocks.Place(file), (f"it breaks limit {number}: {limits.MEANING.get(number, '')}",),
                        ("raise that limit to at least what 16 MHz asks for",))
