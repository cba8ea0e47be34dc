"""The runs of checks/*.txt, which the checks share.

Such a file holds runs: a line `$ WORDS`, the lines that are to be printed, and a line `= STATUS`. The words `...` alone
on a line stand for any lines. A line `% NAME = SOURCE :: OLD :: NEW` makes a file for the runs below it: SOURCE with NEW
in the place of OLD, which stands there once; `\\n` is a line end, and without OLD, NEW is put behind SOURCE. In words and
in files `N*(TEXT)` stands for N times TEXT.
"""
import os
import pathlib
import re
import shutil
import subprocess
import sys
import tempfile

CHECKS = pathlib.Path(__file__).resolve().parent
PROGRAM = CHECKS.parent / "toarnyk"
# these runs are about the program's own text; checks/front is about what is added to it
os.environ["TOARNYK_HINTS"] = "no"


def repeated(text):
    return re.sub(r"(\d+)\*\(([^)]*)\)", lambda found: int(found[1]) * found[2], text)


def make(folder, line):
    name, rest = line.split(" = ", 1)
    source, old, new = (repeated(part.replace("\\n", "\n")) for part in rest.split(" :: "))
    text = (folder / source).read_text()
    if old:
        if text.count(old) != 1:
            sys.exit(f"{name}: {old!r} does not stand once in {source}")
        text = text.replace(old, new)
    else:
        text += new
    (folder / name).write_text(text)


def runs_of(folder, text):
    words, lines = None, []
    for line in text.splitlines():
        if line.startswith("% "):
            make(folder, line[2:])
        elif line.startswith("$ "):
            words, lines = repeated(line[2:]).split(), []
        elif line.startswith("= ") and words is not None:
            yield words, lines, int(line[2:])
            words = None
        elif words is not None:
            lines.append(line)


def all_runs(folder):
    """Each run's words, wanted lines and status. The files that it reads stand in the folder when it is due."""
    for file in (CHECKS.parent / "examples").iterdir():
        shutil.copy(file, folder)
    shutil.copytree(CHECKS.parent / "tables", folder / "tables")
    for file in sorted(CHECKS.glob("*.txt")):
        yield from runs_of(folder, file.read_text())


def each_run():
    """Each run, with what the program answers to it."""
    # the first call builds the program, if it is not built
    subprocess.run([PROGRAM], cwd=CHECKS, stdout=subprocess.DEVNULL)
    with tempfile.TemporaryDirectory() as folder:
        for words, wanted, status in all_runs(pathlib.Path(folder)):
            done = subprocess.run([PROGRAM, *words], cwd=folder, capture_output=True, text=True)
            yield words, wanted, status, done
