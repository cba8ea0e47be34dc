"""What is wrong with a project: the line, the part of it at fault, the nearest names."""
import glob
import os
import re

import blocks
import commands
import project as projects
import table as tables
import table_faults
import words_fault
from near import nearest

FAULT = re.compile(r"project: (.+?)(?: line)? (\d+)$")

# what docs/FORMATS.md says of a key's value
FORMS = (
    (r"Mcu\.PinsNb|RCC\.PLL[MNQ]", "a number without sign or leading zero"),
    (r"RCC\.HSE_VALUE", "a number of hertz up to 4,294,967,295"),
    (r".*\.Locked|KeepUserPlacement", "true or false"),
    (r".*\.GPIO_PuPd", "GPIO_NOPULL, GPIO_PULLUP or GPIO_PULLDOWN"),
    (r".*\.GPIO_Speed", "GPIO_SPEED_FREQ_LOW, GPIO_SPEED_FREQ_MEDIUM, GPIO_SPEED_FREQ_HIGH or GPIO_SPEED_FREQ_VERY_HIGH"),
    (r"RCC\.PLLP", "RCC_PLLP_DIV2, RCC_PLLP_DIV4, RCC_PLLP_DIV6 or RCC_PLLP_DIV8"),
    (r"RCC\.SYSCLKSource", "RCC_SYSCLKSOURCE_HSI, RCC_SYSCLKSOURCE_HSE or RCC_SYSCLKSOURCE_PLLCLK"),
    (r"RCC\.PLLSourceVirtual", "RCC_PLLSOURCE_HSI or RCC_PLLSOURCE_HSE"),
    (r"RCC\.AHBCLKDivider", "RCC_SYSCLK_DIV1, RCC_SYSCLK_DIV2 and so on"),
    (r"RCC\.APB[12]CLKDivider", "RCC_HCLK_DIV1, RCC_HCLK_DIV2 and so on"),
)


def block(words, options, table, project, line, is_free):
    found = FAULT.match(line)
    if not found:
        return None
    what, number = found[1], int(found[2])
    content = b"\n".join(project.raw)
    odd = table_faults.strange(project.file, content)
    if odd and what in ("no equals", "part"):
        return odd
    if what == "no equals" and table_faults.kind_of(content) in ("table", "proof"):
        kind = table_faults.kind_of(content)
        return blocks.Block(f"a {kind} is given as project", blocks.Place(project.file), (),
                            ("the table is the first name, the project (.ioc) the second",))
    told = {"long": long_line, "no equals": no_equals, "escape": escape, "twice": twice, "part": part, "pin": pin,
            "signal": signal, "candidate": candidate, "value": value, "table": out_of_table}.get(what)
    if told:
        return told(table, project, number, is_free)
    if what == "need":
        return need(words, options, table, number)
    return too_many(project, number) if what == "too many" else None


def at_value(project, number):
    """The line with its value marked."""
    raw = project.line(number) or b""
    line = projects.line_of(number, raw)
    return blocks.Place(project.file, number, raw, line.start if line else 0, len(raw)), line


def long_line(table, project, number, is_free):
    raw = project.line(number) or b""
    return blocks.Block(f"the line has {len(raw):,} bytes; 65,535 are the most", blocks.Place(project.file, number, raw[:40]))


def no_equals(table, project, number, is_free):
    raw = project.line(number) or b""
    return blocks.Block("the line has no `=`", blocks.Place(project.file, number, raw, 0, len(raw)), (),
                        ("a line is empty, begins with `#`, or is KEY=VALUE; a `=` behind a backslash does not count",))


def escape(table, project, number, is_free):
    place, line = at_value(project, number)
    at = projects.bad_escape(place.text, place.start)
    if at is not None:
        place = place._replace(start=at, end=min(at + 2, len(place.text)))
    return blocks.Block("a backslash stands before a byte that it can't stand before", place, (),
                        ("a backslash may stand before a space and before each of \\ : = # !",))


def twice(table, project, number, is_free):
    raw = project.line(number) or b""
    line = projects.line_of(number, raw)
    key = line.key if line else ""
    first = project.keys.get(key)
    place = blocks.Place(project.file, number, raw, 0, line.start - 1 if line else len(raw))
    notes = (f"it stands at line {first.number}: {blocks.quoted(first.raw)}",) if first and first.number != number else ()
    return blocks.Block(f"the key {blocks.quoted(key)} stands twice", place, notes, ("strike one of the lines",))


def part(table, project, number, is_free):
    names = [name for name in table.data.get("names", []) if isinstance(name, str)]
    notes = [f"the table {blocks.quoted(table.file)} is of {blocks.listed(names)}, package {blocks.harmless(str(table.data.get('package')))}"]
    if number == 0:
        near = nearest("Mcu.Name", project.keys)
        notes += [f"the nearest: {blocks.listed(near)}"] if near else []
        return blocks.Block("the project has no `Mcu.Name`", blocks.Place(project.file), tuple(notes),
                            ("CubeMX writes it; is this a .ioc file?",))
    place, line = at_value(project, number)
    helps = [f"take the table {one}" for one in tables_of(project)] or \
        ["tables/README.md tells how to make a table of another part"]
    word = "package" if line and line.key == "Mcu.Package" else "part"
    return blocks.Block(f"the project is of another {word} than the table", place, tuple(notes), tuple(helps))


def tables_of(project):
    """The tables of this repository that are of the project's part and package."""
    home = os.path.dirname(os.path.dirname(os.path.abspath(__file__)))
    for folder in (os.path.join(home, "tables"), os.path.join(home, "..", "..", "share", "toarnyk", "tables")):
        for file in sorted(glob.glob(os.path.join(folder, "*.json"))):
            data = tables.read(file).data
            if project.get("Mcu.Name") in data.get("names", []) and project.get("Mcu.Package", data.get("package")) == data.get("package"):
                yield shown_path(file)


def shown_path(file):
    """The file as seen from here where it is below, else in full."""
    near = os.path.relpath(file)
    return os.path.abspath(file) if near.startswith("..") else near


def pin(table, project, number, is_free):
    place, line = at_value(project, number)
    name = line.value if line else ""
    same = table.same_pin(name)
    if same:
        return blocks.Block(f"the table has no pin {blocks.quoted(name)}", place,
                            (f"it calls that pin {blocks.listed(same)}",), ("rename the one or the other",))
    near = nearest(name, table.pins)
    package = blocks.harmless(str(table.data.get("package")))
    notes = [f"the package {package} has {len(table.pins)} port pins in the table"]
    notes += [f"the nearest: {blocks.listed(near)}"] if near else []
    return blocks.Block(f"the table has no pin {blocks.quoted(name)}", place, tuple(notes))


def signal(table, project, number, is_free):
    place, line = at_value(project, number)
    name = line.value if line else ""
    at = line.key.rpartition(".")[0] if line else ""
    there = table.at_pin(at)
    near = list(dict.fromkeys(nearest(name, there, 2) + nearest(name, table.signals)))
    notes = [f"the nearest: {blocks.listed(near)}"] if near else []
    if there:
        notes.append(f"at {blocks.harmless(at)} there can be {blocks.listed(there, 24)}")
    helps = ("tables/README.md says how signals are named; a signal that a table lacks can be added to it",)
    return blocks.Block(f"the table has no signal {blocks.quoted(name)}", place, tuple(notes), helps)


def candidate(table, project, number, is_free):
    place, line = at_value(project, number)
    name, at = (line.value, line.key.rpartition(".")[0]) if line else ("", "")
    rows = [tables.row_text(row) for row in table.rows(name)]
    notes = [f"it can be at {blocks.listed(rows, 16)}", why_kept(project, at, is_free)]
    there = table.at_pin(at)
    if there:
        notes.append(f"at {blocks.harmless(at)} there can be {blocks.listed(there, 24)}")
    return blocks.Block(f"{blocks.quoted(name)} can't be at {blocks.harmless(at)}, and may not move", place, tuple(notes))


def why_kept(project, at, is_free):
    lock = project.of_pin(at, "Locked")
    if lock and lock.value == "true":
        return f"it is locked by line {lock.number}: {blocks.quoted(lock.raw)}"
    keep = project.keys.get("KeepUserPlacement")
    if keep and keep.value == "true":
        return f"it is kept by line {keep.number}: {blocks.quoted(keep.raw)}"
    return "it is kept by `--free`" if not is_free else "it is kept"


def value(table, project, number, is_free):
    place, line = at_value(project, number)
    if line and re.fullmatch(r"Mcu\.Pin\d+", line.key):
        first = next((other for other in project.pins() if other.value == line.value and other.number != number), None)
        notes = (f"line {first.number} lists it: {blocks.quoted(first.raw)}",) if first else ()
        return blocks.Block(f"the pin {blocks.quoted(line.value)} is listed twice", place, notes)
    form = next((form for pattern, form in FORMS if line and re.fullmatch(pattern, line.key)), None)
    near = nearest(line.value, re.findall(r"[A-Z][A-Z0-9_]{4,}|true|false", form), 1) if line and form else []
    notes = [f"its form: {form}"] if form else []
    notes += [f"the nearest: {near[0]}"] if near else []
    return blocks.Block(f"{blocks.quoted(line.value if line else '')} is not of the form of "
                        f"{blocks.quoted(line.key if line else '')}", place, tuple(notes))


DOMAINS = {"RCC.PLLM": "m", "RCC.PLLN": "n", "RCC.PLLQ": "q", "RCC.PLLP": "p", "RCC.AHBCLKDivider": "hpre",
           "RCC.APB1CLKDivider": "ppre1", "RCC.APB2CLKDivider": "ppre2"}


def out_of_table(table, project, number, is_free):
    place, line = at_value(project, number)
    clock = table.data.get("clock", {})
    name = DOMAINS.get(line.key if line else "")
    domain = clock.get(name, []) if isinstance(clock, dict) else []
    text = f"{domain[0]} to {domain[1]}" if name in ("m", "n", "q") and len(domain) == 2 else blocks.listed(map(str, domain), 16)
    return blocks.Block(f"the chip has no such value of {blocks.quoted(line.key if line else '')}", place,
                        (f"the table has {text}",) if text else ())


def need(words, options, table, number):
    needs = options.get("--need", [])
    name = needs[number - 1] if number <= len(needs) else ""
    place = words_fault.place(words, place_of_need(words, number))
    if name in table.signals:
        return blocks.Block(f"{blocks.quoted(name)} can't be needed: the table has no rows for it", place,
                            ("inputs, outputs and interrupts can be at any pin, so the program does not place them",),
                            (f"put it at a pin of the project: `<pin>.Signal={blocks.harmless(name)}` and a line `Mcu.Pin<k>`",))
    rowed = [other for other in table.signals if table.rows(other)]
    near = nearest(name, rowed)
    return blocks.Block(f"the table has no signal {blocks.quoted(name)}", place,
                        (f"the nearest: {blocks.listed(near)}",) if near else (),
                        ("signals are named as CubeMX names them; the table's file lists them",))


def place_of_need(words, number):
    """Which word is the value of the Nth `--need`."""
    place, names = 1 + len(commands.COMMANDS[words[0]].names), 0
    while place + 1 < len(words):
        option = commands.OPTIONS.get(words[place])
        names += words[place] == "--need"
        if names == number:
            return place + 2
        place += 2 if option and option.value else 1
    return len(words)


def too_many(project, number):
    return blocks.Block(f"signals and needs are {number} together; 160 are the most", blocks.Place(project.file))
