"""The cases of blocks.txt: files made from the examples, words, what the program answers, and the block that is added.

`% NAME = SOURCE :: OLD :: NEW` makes a file: SOURCE with NEW in the place of OLD, which stands there once; without OLD,
NEW is put behind SOURCE; without SOURCE, the file is NEW. Backslashes are escapes as in Python, and `N*(TEXT)` stands for
N times TEXT. `$ WORDS` begins a case; the lines to `= STATUS` are the program's answer, and those behind it to an empty
line are the block.
"""
import codecs
import pathlib
import re
import shutil
import sys
from typing import NamedTuple

HERE = pathlib.Path(__file__).resolve().parent
HOME = HERE.parent.parent
sys.path.insert(0, str(HERE.parent))


class Case(NamedTuple):
    words: list
    answer: str
    status: int
    block: str


def repeated(text):
    return re.sub(r"(\d+)\*\(([^)]*)\)", lambda found: int(found[1]) * found[2], text)


def make(folder, line):
    name, rest = line.split(" = ", 1)
    source, old, new = rest.split(" :: ")
    old, new = (codecs.escape_decode(repeated(part).encode())[0] for part in (old, new))
    content = (folder / source).read_bytes() if source else b""
    if old:
        assert content.count(old) == 1, f"{name}: {old!r} does not stand once in {source}"
        content = content.replace(old, new)
    else:
        content += new
    (folder / name).write_bytes(content)


def furnish(folder):
    """Puts the examples and tables into the folder, where the words of the cases name them."""
    for file in (HOME / "examples").iterdir():
        shutil.copy(file, folder)
    shutil.copytree(HOME / "tables", folder / "tables")


def each_case(folder):
    """The cases in order. The files that a case reads stand in the folder when it is due."""
    case = None
    for line in (HERE / "blocks.txt").read_text().splitlines() + [""]:
        if line.startswith("% ") and case is None:
            make(folder, line[2:])
        elif line.startswith("$") and case is None:
            case, answer, status, block = repeated(line[1:]).split(), [], None, []
        elif case is not None and status is None:
            if line.startswith("= "):
                status = int(line[2:])
            else:
                answer.append(line)
        elif case is not None and line:
            block.append(line)
        elif case is not None:
            yield Case(case, "".join(text + "\n" for text in answer), status, "".join(text + "\n" for text in block))
            case = None
