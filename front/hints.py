"""Why the program refused, told with the line at fault, the nearest names and what to do. See `faults.py` for each."""
import os
import stat
import subprocess
import sys

import blocks
import commands
import faults
import words_fault

REREAD_SECONDS = 5
SAYS_A_TEXT = {2, 3, 4, 5, 6, 7, 10, 12, 13, 14, 15, 16}


def main(argv):
    """`--hints STATUS WORDS..`: the block for what the program answered to these words."""
    status, words = int(argv[0]), argv[1:]
    block = block_for(status, words, said_again(status, words))
    if block:
        blocks.tell(block)


def inputs_of(words):
    """The files that the words name."""
    command = commands.COMMANDS.get(words[0]) if words else None
    if not command or not command.proved:
        return []
    return [word for name, word in zip(command.names, words[1:]) if commands.is_file(command, name)]


def can_be_read_again(name):
    """Whether reading a file a second time gives the same: a pipe's bytes are gone."""
    try:
        mode = os.stat(name).st_mode
    except OSError:
        return True
    return stat.S_ISREG(mode) or stat.S_ISDIR(mode)


def said_again(status, words):
    """What the program says to these words, asked once more; None where that is not sure to be the same."""
    program = os.environ.get("TOARNYK_PROGRAM")
    has_text = status in SAYS_A_TEXT or (status == 1 and words[:1] != ["pins"])
    if not program or not has_text or not all(map(can_be_read_again, inputs_of(words))):
        return None
    try:
        done = subprocess.run([program, *words], stdin=subprocess.DEVNULL, stdout=subprocess.PIPE,
                              stderr=subprocess.DEVNULL, timeout=REREAD_SECONDS)
    except (OSError, subprocess.SubprocessError, ValueError):
        return None
    return done.stdout.decode("utf-8", "surrogateescape") if done.returncode == status else None


def block_for(status, words, said):
    """The block, or None where there is nothing to add."""
    line = (said or "").split("\n", 1)[0]
    if status == 2:
        return words_fault.block(words, line) or general(status)
    if status == 1:
        return faults.nothing_fits(words, said or "")
    told = {3: faults.unread, 4: faults.too_long, 5: faults.of_table, 6: faults.of_project, 7: faults.too_wide,
            10: faults.of_proof, 12: faults.of_writing, 13: faults.of_request, 14: faults.of_c_text,
            15: faults.of_answers, 16: faults.of_long_run}.get(status)
    block = told(words, line) if told and line else None
    return block or general(status)


def general(status):
    """A block from the status alone."""
    if status > 128 and status not in FIXED:
        return blocks.Block(f"the program was ended by signal {status - 128}", None, ("nothing can be said of the answer",))
    if status in FIXED:
        title, notes, helps = FIXED[status]
        return blocks.Block(title, None, notes, helps)
    known = next((entry for entry in commands.STATUSES if entry.number == status), None)
    helps = (AS_FILES,) if status in range(3, 8) or status == 10 else ()
    return blocks.Block(f"{known.meaning} (status {status})", None, (), helps) if known else None


AS_FILES = "give the inputs as plain files, and the line at fault is shown: a pipe can't be read twice"

FIXED = {
    8: ("the output could not be written whole (status 8)",
        ("what was written before is a prefix of the text: don't use it",),
        ("is the disk full, or did the reader of a pipe end before all was read?",)),
    9: ("out of memory (status 9)",
        ("nothing was written",),
        ("leave less open (`--free pins`, `<pin>.Locked=true` in the project), or allow the process more memory",)),
    20: ("the system did not hand over the words (status 20)",
         ("a word that is not UTF-8, such as a file's name, is one cause",), ("rename the file",)),
    137: ("the program was killed (signal 9)", ("nothing can be said of the answer",),
          ("the system does so where memory runs out",)),
}


if __name__ == "__main__":
    main(sys.argv[1:])
