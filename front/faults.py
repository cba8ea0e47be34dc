"""The block for each refusal of the program, from its line and the files that the words name."""
import os
import re

import blocks
import commands
import limits
import matching
import project as projects
import project_faults
import table as tables
import table_faults
from near import nearest

PINS_ARE_FREE = ("pins", "all")
MOST_NAMED = 12


def options_of(words):
    """The values of the options, as the program reads them: each in a list, in order."""
    command = commands.COMMANDS[words[0]]
    found, place = {}, 1 + len(command.names)
    while place < len(words):
        option = commands.OPTIONS.get(words[place])
        if option is None:
            return found
        value = words[place + 1] if option.value and place + 1 < len(words) else ""
        found.setdefault(option.name, []).append(value)
        place += 2 if option.value else 1
    return found


def is_free(words):
    """Whether the pins of signals that are not locked may change."""
    return words[0] == "pins" or options_of(words).get("--free", ["all"])[0] in PINS_ARE_FREE


def read_both(words):
    """The table and the project; None where either can't be read, which no fault of these words explains."""
    try:
        return tables.read(words[1]), projects.read(words[2])
    except (OSError, ValueError, IndexError, KeyError, TypeError):
        return None


# ---- 3 and 4 ----


def unread(words, line):
    name = line.partition(": ")[2]
    role = role_of(words, name)
    title = f"the {role} {blocks.quoted(name)} could not be read"
    if os.path.isdir(name):
        return blocks.Block(title, None, ("it is a folder",))
    if os.path.exists(name):
        return blocks.Block(title, None, (), ("may you read it?",))
    folder = os.path.dirname(name) or "."
    if not os.path.isdir(folder):
        return blocks.Block(title, None, (f"there is no folder {blocks.quoted(folder)}",))
    near = nearest(os.path.basename(name), os.listdir(folder), 3, 0.8)
    notes = ["there is no such file"]
    if near:
        notes.append("the nearest: " + blocks.listed(os.path.normpath(os.path.join(folder, one)) for one in near))
    return blocks.Block(title, None, tuple(notes))


def role_of(words, name):
    names = commands.COMMANDS[words[0]].names
    return next((role.lower() for role, word in zip(names, words[1:]) if word == name), "file")


def too_long(words, line):
    name = line.partition(": ")[2]
    return blocks.Block(f"the {role_of(words, name)} {blocks.quoted(name)} has more than 67,108,864 bytes", None,
                        (), ("is it the file that you meant?",))


# ---- 5 and 6 ----


def of_table(words, line):
    return table_faults.block(words[1], words[2], line)


def of_project(words, line):
    both = read_both(words)
    if both is None:
        return None
    table, project = both
    return project_faults.block(words, options_of(words), table, project, line, is_free(words))


# ---- 7 ----


def too_wide(words, line):
    """Which signals leave most open, and what to lock."""
    title = "there are too many choices: their ranks would need more than 63 bits"
    helps = []
    if commands.has("board") and words[0] == "resolve":
        helps.append("`toarnyk board` with the same words answers it: it ranks pins and clocks apart")
    both = read_both(words)
    if both is None:
        return blocks.Block(title, None, (), tuple(helps))
    table, project = both
    wanted = matching.wanted_signals(project, table, options_of(words).get("--need", []), is_free(words))
    open_signals = sorted((one for one in wanted if len(one.pins) > 1), key=lambda one: -len(one.pins))
    notes = [f"{len(open_signals)} of {len(wanted)} signals may be at more than one pin; these leave most open:"]
    notes += grouped(open_signals)
    lock = next((f"{line.value}.Locked=true" for line in project.pins() if is_open(project, table, line.value)), None)
    if lock and is_free(words):
        helps.append(f"lock what is settled on the board, a line a pin in the project, such as `{blocks.harmless(lock)}`")
        helps.append("or keep every signal that is placed: `KeepUserPlacement=true` in the project")
    elif any(one.line == 0 for one in open_signals):
        helps.append("place what is settled in the project, and lock it there, in place of `--need`")
    if words[0] == "resolve":
        helps.append("or leave the clock tree as it is: `--free pins`")
    return blocks.Block(title, blocks.Place(project.file), tuple(notes), tuple(helps))


def grouped(open_signals):
    """A line for each signal and its number of pins; what is told alike is told once."""
    counts = {}
    for one in open_signals:
        key = (one.signal, len(one.pins), line_text(one))
        counts[key] = counts.get(key, 0) + 1
    lines = [f"{blocks.harmless(name)}{where}: {pins} pins" + (f", {times} times" if times > 1 else "")
             for (name, pins, where), times in counts.items()]
    return lines[:MOST_NAMED] + ([f"and {len(lines) - MOST_NAMED} more"] if len(lines) > MOST_NAMED else [])


def is_open(project, table, pin):
    signal = project.of_pin(pin, "Signal")
    return signal and len(table.rows(signal.value)) > 1 and not project.is_true(f"{pin}.Locked")


def line_text(one):
    return f" (line {one.line})" if one.line else " (needed)"


# ---- 13 ----


def of_request(words, line):
    """The request that the table does not have, and the nearest ones; or that it was asked for before."""
    number = int(line.rpartition(" ")[2])
    request = words[1 + number]
    title = f"{blocks.quoted(request)} is no DMA request of the table"
    if request in words[2 : 1 + number]:
        return blocks.Block(f"the DMA request {blocks.quoted(request)} is asked for twice", None, ())
    near = nearest(request, tables.dma_requests(words[1]))
    return blocks.Block(title, None, ("the nearest: " + blocks.listed(near),) if near else ())


# ---- 12 ----


def of_writing(words, line):
    """A number that a need would get, or a line that would get too long."""
    if line == "ioc: number":
        return blocks.Block("there is no number left for a needed pin", None,
                            ("the needs are numbered on from the greatest k of the project's `Mcu.Pin<k>`, up to 2^64 - 1",),
                            ("give that pin of the project a smaller k",))
    number = line.rpartition(" ")[2]
    return blocks.Block(f"line {number} of the project would have more than 65,535 bytes", None, (),
                        ("shorten that line in the project",))


# ---- 14, 15 and 16 ----


def line_of(file, line):
    """The place of the line that is told, with its text; None where the file cannot be read."""
    try:
        with open(file, "rb") as stream:
            lines = stream.read().split(b"\n")
    except OSError:
        return None
    number = int(line.rpartition(" ")[2])
    text = lines[number - 1] if number <= len(lines) else b""
    return blocks.Place(file, number, text, 0, len(text))


def of_c_text(words, line):
    """The C text's first line that is not of the form due there."""
    file = words[3] if len(words) > 3 else ""
    place = line_of(file, line)
    if place is None:
        return None
    return blocks.Block("the C text is not of the form that `toarnyk resolve` prints", place, (),
                        ("it begins with `#include <stdint.h>`, and each access is a line of one of four forms",))


def of_answers(words, line):
    """The line of flag answers that is not of their form, or with which there are too many."""
    file = words[4] if len(words) > 4 else ""
    place = line_of(file, line)
    if place is None:
        return None
    return blocks.Block("the line is not `N FLAGS`, or there are more than 1,000,000 answers with it", place, (),
                        ("FLAGS is `-` or some of the letters h, p, l, s, o and w, in this order, as in `100 hpls`",))


def of_long_run(words, line):
    return blocks.Block("the run has more than 1,000,000 steps", None, ("each poll of an await is a step",),
                        ("let the flags come earlier, or lower the counts of polls",))


# ---- 1 ----


def nothing_fits(words, said):
    """Signals that want too few pins, interrupts of one number, or the limits that a refutation names."""
    command = commands.COMMANDS.get(words[0]) if words else None
    # what `explain` prints says why by itself
    if not command or not command.proved or "--need" not in command.options or command.name == "explain":
        return None
    helps = ("`toarnyk explain` with the same words says why" if commands.has("explain") else "",)
    both = read_both(words)
    title = "the signals can't all have pins" if words[0] == "pins" else "no choice meets every limit"
    if both is None:
        return blocks.Block(title, None, (), tuple(filter(None, helps)))
    table, project = both
    block = crowded(words, table, project) or by_limits(title, project, said)
    return block._replace(helps=tuple(filter(None, helps + block.helps)))


def crowded(words, table, project):
    wanted = matching.wanted_signals(project, table, options_of(words).get("--need", []), is_free(words))
    numbers = matching.crowd(wanted)
    if numbers:
        pins = dict.fromkeys(pin for number in numbers for pin in wanted[number].pins)
        title = f"{len(numbers)} signals want {len(pins)} pin{'s' if len(pins) > 1 else ''}"
    else:
        numbers = matching.same_interrupts(wanted, table)
        title = f"{len(numbers)} interrupts stand at pins of one number, and share one EXTI line"
    if not numbers:
        return None
    notes = [wanted_text(wanted[number]) for number in numbers[:MOST_NAMED]]
    if len(numbers) > MOST_NAMED:
        notes.append(f"and {len(numbers) - MOST_NAMED} more")
    return blocks.Block(title, blocks.Place(project.file), tuple(notes), tuple(ways_out([wanted[n] for n in numbers])))


def wanted_text(one):
    name = "a pin that is held without a signal" if one.signal == "-" else blocks.harmless(one.signal)
    where = blocks.listed(one.pins, 16)
    why = {"held": "", "no rows": ", where it stays", "locked": ", locked", "KeepUserPlacement": ", kept by KeepUserPlacement",
           "--free": ", kept by --free"}.get(one.why, "")
    return f"{name}{line_text(one)}: {where}{why}"


def ways_out(crowd):
    """What may be changed, each way a line."""
    reasons, ways = {one.why for one in crowd}, []
    if "locked" in reasons:
        locked = [one.pins[0] + ".Locked" for one in crowd if one.why == "locked"]
        ways.append(f"if the board allows, strike {'one of ' if len(locked) > 1 else ''}{blocks.listed(locked)}")
    if "KeepUserPlacement" in reasons:
        ways.append("if the board allows, strike KeepUserPlacement=true")
    if "--free" in reasons:
        ways.append("let them move: `--free all` or `--free pins`")
    if any(one.line == 0 for one in crowd):
        ways.append("leave out one `--need`")
    if "no rows" in reasons or "held" in reasons:
        ways.append("give an input, an output, an interrupt or a held pin another pin: the program leaves them where they are")
    return [("or " if number else "") + way for number, way in enumerate(ways)]


def by_limits(title, project, said):
    """The limits that a refutation names; without one, that the pins alone would fit."""
    named = list(dict.fromkeys(re.findall(r"^L (\d+)$", said, re.MULTILINE)))
    notes = ["the pins alone would fit: the clock tree is at fault"]
    notes += [f"limit {number}: {limits.MEANING[int(number)]}" for number in named if int(number) in limits.MEANING]
    helps = ["`toarnyk tree` with the same files shows what the project's own tree runs at"]
    if said.startswith("proof 1\nbound none\nL "):
        notes[1] += ", whatever is chosen"
    return blocks.Block(title, blocks.Place(project.file), tuple(notes), tuple(helps))


# ---- 10 ----


def of_proof(words, line):
    """A proof of another form, or one that breaks its rule."""
    file = words[3] if len(words) > 3 else ""
    try:
        with open(file, "rb") as stream:
            content = stream.read()
    except OSError:
        return None
    found = re.match(r"proof: (line|node) (\d+)", line)
    if not found:
        return None
    kind = table_faults.kind_of(content)
    if kind in ("table", "project"):
        return blocks.Block(f"a {kind} is given as proof", blocks.Place(file), (),
                            ("the proof is what `toarnyk resolve` prints with status 1, or with `--proof`",))
    number = int(found[2])
    if found[1] == "line":
        return bad_proof_line(file, content.split(b"\n"), number)
    return bad_proof_node(words, file, content.split(b"\n"), number)


def bad_proof_line(file, lines, number):
    if b"proof 1" not in lines:
        return blocks.Block("the file has no line `proof 1`", blocks.Place(file), (),
                            ("a proof begins with it; `toarnyk resolve` prints one with status 1, or with `--proof`",))
    text = lines[number - 1] if number <= len(lines) else b""
    title = "the proof ends too early" if number >= len(lines) and not text else "the line is not of the form due there"
    return blocks.Block(title, blocks.Place(file, number, text, 0, len(text)), (),
                        ("after `bound none` or `bound R` come the nodes of one tree, a line each, then `end`",))


def bad_proof_node(words, file, lines, number):
    start = lines.index(b"proof 1") + 2 if b"proof 1" in lines else 0
    place = start + number
    helps = ("the proof is of other words or files, or it is wrong: `toarnyk resolve` with these words prints one that holds",)
    if place + 1 >= len(lines) or lines[place] == b"end":
        return blocks.Block("no node is the choice that the stated bound speaks of", blocks.Place(file), (), helps)
    text = lines[place]
    return blocks.Block(f"node {number} breaks its rule", blocks.Place(file, place + 1, text, 0, len(text)),
                        (node_text(text),), helps)


def node_text(text):
    head = text.split(b" ")[0]
    return {b"S": "a split needs a variable that there is, and leaves no part empty",
            b"H": "signals with as many pins as they are, or more, are no reason",
            b"L": "the clock values of its box leave room for this limit",
            b"R": "its box has a choice of a rank as low as the bound",
            b"W": "its box has not one legal choice with the bound as its rank"}.get(head, "it does not hold")
