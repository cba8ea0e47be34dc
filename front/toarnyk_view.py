"""`toarnyk view TABLE PROJECT [OPTION..] > board.html`: what the program answers, as one page with pictures.

The program is run as a person would run it, and its texts are read as docs/FORMATS.md describes them. Its path comes from
the environment (TOARNYK_PROGRAM), or it lies beside this folder. The status is that of `resolve`: 0 where all fits, 1
where nothing does, and then too there is a page. With another status there is none, and the program's line goes to
standard error; but where ranks would be too wide (7) the page shows the pins and the project's own clock tree, if the
program answers these.
"""
import os
import pathlib
import subprocess
import sys

from view_answers import Unreadable, read_placement, read_refutation, read_report, read_tree
from view_board import hall_sets, homes_of, ips_in_use, places_of
from view_clock import cells_of
from view_inputs import read_project, read_table
from view_page import View, page

HERE = pathlib.Path(__file__).resolve().parent
ANSWERED, REFUTED, WORDS, TOO_WIDE, UNREAD, NO_PROGRAM = 0, 1, 2, 7, 70, 69
HINT = "view writes a page of HTML: toarnyk view TABLE PROJECT [OPTION..] > board.html"


class Refused(Exception):
    """There is no page. It has the lines for standard error and the status."""

    def __init__(self, text, status):
        super().__init__(text)
        self.text, self.status = text, status


def program():
    """The path of the proved program."""
    named = os.environ.get("TOARNYK_PROGRAM")
    beside = [HERE / "resolver_cli", HERE.parent / "resolver_cli", HERE.parent / ".toarnyk" / "resolver_cli"]
    paths = [pathlib.Path(named)] if named else [path for path in beside if os.access(path, os.X_OK)]
    if not paths:
        raise Refused("toarnyk: the program is not there; TOARNYK_PROGRAM may name it\n", NO_PROGRAM)
    return paths[0]


def run(path, words):
    """The status and the text of a call."""
    try:
        done = subprocess.run([path, *words], capture_output=True)
    except OSError as fault:
        raise Refused(f"toarnyk: {path}: {fault.strerror}\n", NO_PROGRAM)
    status = done.returncode if done.returncode >= 0 else 128 - done.returncode
    return status, done.stdout.decode("utf-8", "replace")


def options_of(words):
    """The options as pairs of name and value. The program has taken them, so that each but `--proof` has a value."""
    words, pairs = iter(words), []
    for word in words:
        pairs.append((word, "" if word == "--proof" else next(words, "")))
    return pairs


def only(options, *names):
    return [word for pair in options if pair[0] in names for word in pair]


def read(name):
    try:
        return pathlib.Path(name).read_bytes()
    except OSError as fault:
        raise Refused(f"toarnyk view: {name}: {fault.strerror}\n", 3)


def explanation(path, words):
    """What `explain` says, where the program has that command."""
    status, text = run(path, ["explain", *words])
    return text if status in (ANSWERED, REFUTED) else ""


def closing_of(nodes):
    """What closes each case: `L` with the limit's number, `H` with `pins` or `exti`, or `R`."""
    return tuple((node.kind, int(node.words[0]) if node.kind == "L" else node.words[0] if node.words else "")
                 for node in nodes if node.kind not in "SW")


def best_hall(halls):
    """The set to draw: one that holds for every choice where there is one, and then the smallest."""
    return min(halls, key=lambda hall: (len(hall.case), len(hall.wanted)), default=None)


def placed_alone(path, files, options, table, status):
    """The lines of `pins`, or none where nothing fits."""
    found, text = run(path, ["pins", *files, *only(options, "--need")])
    if found == ANSWERED:
        return read_placement(text, table.pins)[1]
    if status == TOO_WIDE:
        raise Refused(f"too wide: {text}" if found == REFUTED else text, status if found == REFUTED else found)
    return ()


def tree_alone(path, files, options):
    found, text = run(path, ["tree", *files, *only(options, "--vdd")])
    return read_tree(text) if found == ANSWERED else (None, None)


def cells_for(table, clock, old, broken, project, options):
    """The nodes of the tree; none where there is no tree."""
    if not clock:
        return {}
    signals = [pin.signal for pin in project.pins] + [value for name, value in options if name == "--need"]
    wishes = {name: int(value) for name, value in options if name in ("--hclk", "--pclk1", "--pclk2")}
    return cells_of(table, clock, old or clock, ips_in_use(table, project, signals), wishes, broken)


def view_of(path, words):
    """The view and the status."""
    # the program reads the inputs first: what is wrong with them is for it to say
    status, text = run(path, ["resolve", *words])
    if status not in (ANSWERED, REFUTED, TOO_WIDE):
        raise Refused(text, status)
    files, options = words[:2], options_of(words[2:])
    table, project = read_table(read(files[0])), read_project(read(files[1]))
    report = read_report(text, table.pins) if status == ANSWERED else None
    nodes = read_refutation(text) if status == REFUTED else []
    old, broken = tree_alone(path, files, options)
    placed = report.placed if report else placed_alone(path, files, options, table, status)
    clock = report.clock if report else old
    needs = [value for name, value in options if name == "--need"]
    return View(
        name=pathlib.Path(files[1]).stem, words=tuple(words[2:]), table=table, project=project,
        places=places_of(placed, project, table) if placed else homes_of(project, table),
        report=report, refuted=status == REFUTED, hall=best_hall(hall_sets(nodes, project, needs, table)),
        closing=closing_of(nodes), explanation=explanation(path, words) if status == REFUTED else "",
        cells=cells_for(table, clock, old, None if report else broken, project, options),
        clock=clock, old=old or clock, broken=broken, note=note_of(status)), status


def note_of(status):
    if status != TOO_WIDE:
        return ""
    return ("Pins and clock tree together are too many choices for a rank; this is what pins and tree say apart. Leave less "
            "open for the whole answer: --free pins, or lock what is settled.")


def tell(refused, words):
    """The program's line on standard error, and what the front has to say to it, unless it is to say nothing."""
    sys.stderr.write("".join(letter if letter.isprintable() or letter == "\n" else "\ufffd" for letter in refused.text))
    if os.environ.get("TOARNYK_HINTS") == "no":
        return
    try:
        import blocks
        import hints
        block = hints.block_for(refused.status, ["resolve", *words], refused.text)
    except Exception:
        # a message that can't be made is left out
        return
    if block:
        blocks.tell(block)


def main(argv):
    """The status of the call whose words behind `view` these are."""
    if sys.stdout.isatty():
        print(HINT, file=sys.stderr)
        return WORDS
    try:
        path = program()
        if len(argv) < 2:
            status, text = run(path, ["resolve", *argv])
            raise Refused(f"{text}{HINT}\n", status)
        view, status = view_of(path, argv)
        sys.stdout.buffer.write(page(view).encode("utf-8"))
        sys.stdout.flush()
        return status
    except Refused as refused:
        tell(refused, argv)
        return refused.status
    except Unreadable as fault:
        print(f"toarnyk view: the program's text is not as expected: {fault}", file=sys.stderr)
        return UNREAD


if __name__ == "__main__":
    sys.exit(main(sys.argv[1:]))
