"""`toarnyk lint TABLE PROJECT`: what the program takes as it stands and a person may not have meant. See lint_kinds.py."""
import sys

import blocks
import commands
import project as projects
import table as tables
from lint_kinds import KINDS
from near import nearest

USAGE = 2
UNREAD = 3
NO_TABLE = 5


def main(argv):
    names, needs, off, fault = words_of(argv)
    if fault:
        sys.stderr.write(f"toarnyk: lint: {fault}\ntoarnyk: usage: toarnyk {commands.usage_line(commands.COMMANDS['lint'])}\n")
        return USAGE
    try:
        project = projects.read(names[1])
        table = tables.read(names[0])
    except OSError as fault:
        sys.stderr.write(f"read failed: {blocks.harmless(str(fault.filename))}\n")
        return UNREAD
    except ValueError:
        sys.stderr.write(f"toarnyk: lint: {blocks.quoted(names[0])} is not JSON: `toarnyk pins` with the same files says where\n")
        return NO_TABLE
    notes = [note for kind in KINDS if kind.name not in off for note in told(kind, project, table, needs)]
    for line, kind, text in sorted(notes):
        sys.stdout.write(f"{blocks.harmless(project.file)}:{line}: {kind}: {blocks.harmless(text)}\n")
    return 1 if notes else 0


def told(kind, project, table, needs):
    for line, text in kind.notes(project, table, needs):
        yield line, kind.name, text


def words_of(argv):
    """The two names, the needs, the kinds that are off, and what is wrong with the words."""
    names, found, rest = [], {"--need": [], "--off": []}, iter(argv)
    for word in rest:
        if word not in found:
            names.append(word)
            continue
        value = next(rest, None)
        if value is None:
            return names, [], [], f"{word} lacks its {commands.OPTIONS[word].value}"
        found[word].append(value)
    known = [kind.name for kind in KINDS]
    strange = next((name for name in found["--off"] if name not in known), None)
    if strange is not None:
        near = nearest(strange, known) or known
        return names, [], [], f"there is no kind {blocks.quoted(strange)}; the nearest: {', '.join(near)}"
    if len(names) != 2:
        return names, [], [], "a table and a project are due"
    return names, found["--need"], found["--off"], None
