"""`toarnyk --version`: what was proved, with which kit, when; and the tables."""
import glob
import hashlib
import os
import sys

HERE = os.path.dirname(os.path.abspath(__file__))


def main(argv):
    program = os.environ.get("TOARNYK_PROGRAM", "")
    lines = ["toarnyk, a resolver for pins and clock tree of STM32F405, F407, F42x and F43x"]
    lines += proved(program)
    lines += [f"table {os.path.basename(file)[:-5]}: {sum_of(file)[:16]}" for file in tables()]
    sys.stdout.write("\n".join(lines) + "\n")
    return 0


def proved(program):
    """The lines that the script left beside the program when it was proved, and the sum of the program as it is now."""
    if not os.path.isfile(program):
        return ["program: not proved and built yet (the first command of it does that)"]
    try:
        with open(os.path.join(os.path.dirname(program), "proved")) as stream:
            said = dict(line.rstrip("\n").split(" ", 1) for line in stream if " " in line)
    except OSError:
        said = {}
    now = sum_of(program)
    lines = [f"kit: {said.get('kit', 'not known')}", f"proved and built: {said.get('date', 'not known')}",
             f"sources: {said.get('sources', 'not known')}", f"program: {now}"]
    if said.get("program") not in (None, now):
        lines.append("warning: this is not the program that was proved then: its sum was " + said["program"])
    return lines


def sum_of(file):
    with open(file, "rb") as stream:
        return hashlib.sha256(stream.read()).hexdigest()


def tables():
    for folder in (os.path.join(HERE, "..", "tables"), os.path.join(HERE, "..", "..", "..", "share", "toarnyk", "tables")):
        if os.path.isdir(folder):
            return sorted(glob.glob(os.path.join(folder, "*.json")))
    return []
