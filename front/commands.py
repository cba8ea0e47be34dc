"""The one list of commands, options and statuses: help, man page, completion and nearest names are made from it.

A new command of the program is one entry of COMMANDS (and of OPTIONS, for each new option). `checks/words` compares
the list with docs/FORMATS.md.
"""
from typing import NamedTuple


class Option(NamedTuple):
    """An option; `value` is what its next word is called, or None where it takes none."""

    name: str
    value: str | None
    summary: str
    default: str
    values: tuple = ()
    several: bool = False
    limit: tuple = ()


class Command(NamedTuple):
    """A command; `proved` tells whether the proved program answers it, or the front around it."""

    name: str
    names: tuple
    options: tuple
    summary: str
    text: str
    example: str
    proved: bool


class Status(NamedTuple):
    number: int
    meaning: str
    text: str


OPTIONS = {
    option.name: option
    for option in (
        Option("--need", "SIGNAL", "a signal of the table that has rows; may stand several times", "none", several=True),
        Option("--vdd", "MV", "the supply in millivolts", "3300", limit=(0, 10_000)),
        Option("--hclk", "HZ", "a wish for HCLK, in hertz", "none", limit=(0, 4_294_967_295)),
        Option("--pclk1", "HZ", "a wish for PCLK1, in hertz", "none", limit=(0, 4_294_967_295)),
        Option("--pclk2", "HZ", "a wish for PCLK2, in hertz", "none", limit=(0, 4_294_967_295)),
        Option("--free", "WHAT", "what may change: pins, clock, all or none", "all", ("pins", "clock", "all", "none")),
        Option("--workers", "N", "threads", "1", limit=(1, 16)),
        Option("--proof", None, "the proof is printed after the report", "off"),
        Option("-o", "FILE", "the file to write, whose name ends with .c; a header is put beside it", "standard output"),
        Option("--off", "KIND", "a kind of note that is not to be told; may stand several times", "none", several=True),
    )
}

# the options that `resolve` and its kin share, told as OPTION in a usage
SHARED = ("--vdd", "--need", "--hclk", "--pclk1", "--pclk2", "--free")

COMMANDS = {
    command.name: command
    for command in (
        Command(
            "pins", ("TABLE", "PROJECT"), ("--need",),
            "where each signal sits, and what must move when one more is needed",
            "Looks at the pins alone. Prints the placement that moves the fewest signals from where the project has "
            "them, a line a signal: pin, signal, mode, and kept, moved or need.",
            "pins tables/STM32F407VG.json examples/discovery-board.ioc --need CAN1_RX", True),
        Command(
            "tree", ("TABLE", "PROJECT"), ("--vdd",),
            "what the project's clock tree runs at, and the first limit that it breaks",
            "Prints each node of the clock tree in hertz, and `limits met` or `limits broken L K`. The status is 0 "
            "either way.",
            "tree examples/sample.json examples/too-fast.ioc", True),
        Command(
            "resolve", ("TABLE", "PROJECT"), SHARED + ("--workers", "--proof"),
            "pins and clocks that meet every limit with the fewest changes, and a C function that sets them up",
            "Searches pins and clock tree together. Prints the choice of least rank (fewest changes first) and a C "
            "function that sets it up from reset. Where nothing fits, prints a refutation with status 1.",
            "resolve tables/STM32F407VG.json examples/discovery-board.ioc", True),
        Command(
            "check", ("TABLE", "PROJECT", "PROOF"), SHARED,
            "whether a refutation, or the proof behind a report, holds",
            "Give it the words of the `resolve` that the proof is of, with the file of the proof after the project. It "
            "shares no search with `resolve`, so it answers for a proof whoever wrote it.",
            "check TABLE PROJECT PROOF --vdd 1800", True),
        Command(
            "case", ("NUMBER",), ("--workers",),
            "solves a problem made from a number, which needs no files",
            "For trying the program and for measuring it: the problem has 117,650,069,913,600 choices, so its time "
            "tells what the machine does, and the answer is proved to be the least one like any other.",
            "case 7", True),
        Command(
            "can", ("TABLE", "PROJECT", "RATE", "POINT", "TOLERANCE"), (),
            "the bit timing of a CAN bus, for an exact rate and a sample point",
            "RATE is in bits per second, POINT and TOLERANCE are in per mille of a bit. The clock is PCLK1 of the project's "
            "tree, and the rate is met exactly or not at all. Prints the timing with the least prescaler, then the least first "
            "segment, and CAN_BTR; where there is none, a proof of that with status 1.",
            "can examples/sample.json examples/discovery.ioc 500000 875 20", True),
        Command(
            "i2s", ("TABLE", "PROJECT", "RATE"), (),
            "the PLLI2S for a sample rate, with the error that is left, and the C lines that set it up",
            "RATE is the sample rate in hertz, with the master clock. The source and the divider M are those of the project. "
            "Prints the choice whose rate is nearest, by exact fractions, with I2SPR and the writes; where no choice keeps the "
            "limits, `no choice` with status 1.",
            "i2s examples/sample.json examples/discovery.ioc 48000", True),
        Command(
            "dma", ("TABLE", "REQUEST.."), ("--workers",),
            "a DMA stream for each request, or why they cannot all have one",
            "1 to 16 requests of the table, such as SPI1_RX. Prints the least choice, a line a request: a request has its first "
            "row where it can. Where two want one stream and there is no way out, a proof of that with status 1.",
            "dma tables/STM32F407VG.json SPI1_RX ADC1 USART1_RX", True),
        Command(
            "ioc", ("TABLE", "PROJECT"), SHARED + ("--workers",),
            "the project's text with the choice of `resolve` as its homes",
            "Prints the project with the pins and dividers of the least choice. Every line that need not change stays byte for "
            "byte; what a key is missing for stands behind the last line. Where nothing fits, `no choice` with status 1.",
            "ioc examples/sample.json examples/usart-and-output.ioc --need I2C1_SCL", True),
        Command(
            "board", ("TABLE", "PROJECT"), SHARED,
            "as `resolve`, for a board that is too wide to be ranked in one number",
            "Pins and clocks are searched one after the other, so the pins' ranks alone must be below 2^63. Prints the cost, then "
            "what `resolve` prints behind its rank. Where nothing fits, a refutation with status 1.",
            "board tables/STM32F407IG.json examples/camera-board.ioc", True),
        Command(
            "explain", ("TABLE", "PROJECT"), SHARED,
            "what the choice changes; or why nothing fits, and which one thing to give up",
            "Where a choice fits, prints its rank and a line for each change. Where none does, the signals that want too few pins "
            "or the limits that are in the way with their figures, and then each single need, wish, lock or pin without which a "
            "choice fits, with its cost; the status is 1.",
            "explain examples/sample.json examples/no-room.ioc --need I2C1_SCL --free pins", True),
        Command(
            "trace", ("TABLE", "PROJECT", "C", "ANSWERS"), ("--vdd",),
            "what a C text does to the registers, step by step, and where the chip is not in a legal state",
            "Runs the C function of a report, also one that was changed by hand, on the machine of the registers from reset. Prints a "
            "line for each access that is done: its number, address and word, the clock source and the wait states in effect, and "
            "`legal` or `illegal`; then how it ended. ANSWERS tells which flags come at each step.",
            "trace examples/sample.json examples/too-fast.ioc examples/no-wait-states.c examples/all-flags.txt", True),
        Command(
            "code", ("TABLE", "PROJECT"), SHARED + ("--workers", "-o"),
            "the C text of `resolve` alone, and on success alone",
            "Where `resolve` refuses, nothing goes to standard output or into the file, its line goes to standard "
            "error, and the status is its own. With -o a header is written beside the file.",
            "code TABLE PROJECT -o board_init.c", False),
        Command(
            "lint", ("TABLE", "PROJECT"), ("--need", "--off"),
            "what the program takes as it stands and a person may not have meant",
            "Prints notes, each with file and line. The status is 0 without notes and 1 with.",
            "lint tables/STM32F407VG.json examples/motor-board.ioc", False),
        Command(
            "view", ("TABLE", "PROJECT"), SHARED + ("--workers",),
            "one HTML page with the package, the clock tree and the C text",
            "Prints a page that opens from disk and needs nothing from outside.",
            "view TABLE PROJECT > board.html", False),
        Command(
            "install", ("PREFIX",), (),
            "puts program, tables, man page and completion under a folder, to run without the kit",
            "PREFIX/bin/toarnyk is the command then.",
            "install /usr/local", False),
        Command(
            "help", ("[COMMAND]",), (),
            "this help, or that of a command",
            "`--help` before or behind a command is the same.",
            "help resolve", False),
    )
}

# the names of `dma` behind its table
REQUESTS = "REQUEST.."

# the names that are numbers, with the least and the greatest
NUMBERS = {
    ("case", "NUMBER"): (0, 18_446_744_073_709_551_615),
    ("can", "RATE"): (1, 1_000_000),
    ("can", "POINT"): (1, 999),
    ("can", "TOLERANCE"): (0, 999),
    ("i2s", "RATE"): (8_000, 192_000),
}

STATUSES = (
    Status(0, "answered", "the placement, the tree, the report, or `accepted: ..`"),
    Status(1, "nothing fits", "`no choice`, and for `explain` why; for `resolve`, `board`, `can` and `dma` the refutation"),
    Status(2, "the words are not of the grammar", "`usage: word N`"),
    Status(3, "an input could not be read", "`read failed: NAME`"),
    Status(4, "an input has more than 67,108,864 bytes", "`too long: NAME`"),
    Status(5, "a fault of the table", "`tables: ..` with the path of its first fault"),
    Status(6, "a fault of the project or of a need", "`project: ..` with its line"),
    Status(7, "ranks would need more than 63 bits", "`too wide: variable V`"),
    Status(8, "the output could not be written", "a prefix of the text"),
    Status(9, "out of memory", "nothing"),
    Status(10, "the proof is not accepted", "`proof: line N` or `proof: node N`"),
    Status(12, "the project cannot be written back", "`ioc: number` or `ioc: line N`"),
    Status(13, "a DMA request that the table does not have, or that is asked for twice", "`dma: request N`"),
    Status(14, "the C text has no reading", "`c: line N`, the first line that is not of a form due there"),
    Status(15, "the flag answers are not of their form, or are too many", "`answers: line N`"),
    Status(16, "a traced run has more than 1,000,000 steps", "`trace: long`"),
    Status(20, "the system did not hand over the words", "nothing"),
)

ENVIRONMENT = (
    ("TOARNYK_HINTS=no", "nothing is added to what the program prints (as with --quiet before the command)"),
    ("NO_COLOR", "no colour on a terminal"),
)


def is_file(command, name):
    """Whether a name of a command is that of a file."""
    return (command.name, name) not in NUMBERS and name != REQUESTS


def has(name):
    """Whether the proved program has the command."""
    return name in COMMANDS and COMMANDS[name].proved


def shown(command):
    """The options that a usage line spells; those that several commands share are told as [OPTION..]."""
    return [name for name in command.options if name not in SHARED or not shares(command)]


def shares(command):
    return set(SHARED) <= set(command.options)


def usage_of(option):
    words = option.name if option.value is None else f"{option.name} {option.value}"
    return f"[{words}].." if option.several else f"[{words}]"


def usage_line(command):
    """The usage with [OPTION..] for the options that several commands share."""
    words = [command.name, *command.names]
    if shares(command):
        words.append("[OPTION..]")
    return " ".join(words + [usage_of(OPTIONS[name]) for name in shown(command)])
