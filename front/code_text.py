"""`toarnyk code`: the C text of `resolve` alone, on success alone; with -o a header beside it."""
import os
import re
import subprocess
import sys
import tempfile

import blocks
import hints

USAGE = 2
UNWRITTEN = 8
START = b"#include <stdint.h>\n"
END = b"\n}\n"


def main(argv):
    words, file, fault = without_file(argv)
    if fault:
        sys.stderr.write(f"toarnyk: code: {fault}\n")
        return USAGE
    program = os.environ["TOARNYK_PROGRAM"]
    done = subprocess.run([program, "resolve", *words], stdout=subprocess.PIPE)
    if done.returncode != 0:
        refused(done.returncode, ["resolve", *words], done.stdout)
        return done.returncode if done.returncode > 0 else 128 - done.returncode
    text = c_text(done.stdout)
    if file is None:
        sys.stdout.buffer.write(text)
        sys.stdout.buffer.flush()
        return 0
    return written(file, text)


def without_file(argv):
    """The words of `resolve`, the file behind -o, and what is wrong with that."""
    words, file = [], None
    rest = iter(argv)
    for word in rest:
        if word != "-o":
            words.append(word)
            if word.startswith("--") and word != "--proof":
                words += [value for value in [next(rest, None)] if value is not None]
            continue
        if file is not None:
            return words, file, "-o stands twice"
        file = next(rest, None)
        if file is None:
            return words, file, "-o lacks its FILE"
        if not re.search(r"[^/]\.c$", file):
            return words, file, f"the name behind -o must end with .c: {blocks.quoted(file)}"
    return words, file, None


def refused(status, words, said):
    """The program's line on standard error, and what the front has to say to it."""
    line = said.decode("utf-8", "surrogateescape").split("\n", 1)[0]
    if line and status != 1:
        sys.stderr.write(blocks.harmless(line) + "\n")
    if status == 1:
        sys.stderr.write("no choice: `toarnyk resolve` with the same words prints the refutation\n")
    if os.environ.get("TOARNYK_HINTS") == "no":
        return
    try:
        block = hints.block_for(status, words, said.decode("utf-8", "surrogateescape"))
    except Exception:
        return
    if block:
        blocks.tell(block)


def c_text(report):
    """From `#include` to the first line that is the last brace: what is behind it is a proof."""
    start = report.index(START)
    return report[start : report.index(END, start) + len(END)]


def written(file, text):
    """Writes the file and its header, each whole or not at all."""
    try:
        replace(file, text)
        replace(file[:-2] + ".h", header(file, text).encode())
    except OSError as fault:
        sys.stderr.write(f"toarnyk: code: {blocks.harmless(file)} could not be written: {fault.strerror}\n")
        return UNWRITTEN
    return 0


def replace(file, content):
    folder = os.path.dirname(file) or "."
    handle, name = tempfile.mkstemp(dir=folder, prefix=".toarnyk-")
    try:
        with os.fdopen(handle, "wb") as stream:
            stream.write(content)
        os.chmod(name, 0o666 & ~umask())
        os.replace(name, file)
    except OSError:
        os.unlink(name)
        raise


def umask():
    mask = os.umask(0)
    os.umask(mask)
    return mask


def header(file, text):
    """A header for the one function. Its names differ from those of the C text, so that both may be in one file."""
    over = OVER if OVER_TIMEOUT in text else ""
    guard = re.sub(r"\W", "_", os.path.basename(file)[:-2]).upper() + "_H"
    return HEADER.replace("OVER", over).replace("GUARD", guard if not guard[0].isdigit() else "BOARD_" + guard)


# what the text returns beside, where it sets up over-drive
OVER_TIMEOUT = b"OVER_TIMEOUT"
OVER = """,
    BOARD_INIT_OVER_TIMEOUT = 5,
    BOARD_INIT_OVER_SWITCH_TIMEOUT = 6"""

HEADER = """#ifndef GUARD
#define GUARD

#ifdef __cplusplus
extern "C" {
#endif

/* What board_init returns. After a timeout no pin is set up, and the chip is in a legal state. */
enum board_init_result {
    BOARD_INIT_DONE = 0,
    BOARD_INIT_HSE_TIMEOUT = 1,
    BOARD_INIT_PLL_TIMEOUT = 2,
    BOARD_INIT_LATENCY_TIMEOUT = 3,
    BOARD_INIT_SWITCH_TIMEOUT = 4OVER
};

/* Sets up clocks and pins. Call it once, first thing after reset. */
int board_init(void);

#ifdef __cplusplus
}
#endif

#endif
"""
