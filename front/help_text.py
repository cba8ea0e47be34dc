"""`toarnyk help [COMMAND]`: the commands, options and statuses, from the one list."""
import sys
import textwrap

import blocks
import commands
from near import nearest

WIDTH = 96


def main(argv):
    if len(argv) > 1:
        sys.stderr.write("toarnyk: usage: toarnyk help [COMMAND]\n")
        return 2
    if not argv:
        sys.stdout.write(overview())
        return 0
    command = commands.COMMANDS.get(argv[0])
    if command is None:
        near = nearest(argv[0], commands.COMMANDS)
        sys.stderr.write(f"toarnyk: there is no command {blocks.quoted(argv[0])}"
                         + (f"; the nearest: {blocks.listed(near)}\n" if near else "\n"))
        return 2
    sys.stdout.write(of_command(command))
    return 0


def rows(pairs, indent="  "):
    """Two columns; the second is folded."""
    width = max(len(first) for first, _ in pairs)
    for first, second in pairs:
        lines = textwrap.wrap(second, WIDTH - width - len(indent) - 2)
        yield f"{indent}{first:<{width}}  {lines[0]}"
        yield from (" " * (len(indent) + width + 2) + line for line in lines[1:])


def overview():
    proved = [command for command in commands.COMMANDS.values() if command.proved]
    around = [command for command in commands.COMMANDS.values() if not command.proved]
    lines = ["Pins and clock tree of STM32F405, F407, F42x and F43x: which fit, and with the fewest changes.", "",
             "usage: toarnyk [--quiet] COMMAND TABLE PROJECT [OPTION]..", "",
             "TABLE is a part's table (JSON; tables/ has some), PROJECT what CubeMX writes (.ioc).", "",
             "Answered by the proved program:"]
    lines += rows([(command.name, command.summary) for command in proved])
    lines += ["", "Around it:"]
    lines += rows([(command.name, command.summary) for command in around])
    lines += ["", "Statuses:", *status_rows()]
    lines += ["", "Environment:", *rows(commands.ENVIRONMENT)]
    lines += ["", "`toarnyk help COMMAND` tells the options; `toarnyk --version` what was proved and when;",
              "docs/FORMATS.md what is read and printed."]
    return "\n".join(lines) + "\n"


def status_rows():
    return rows([(str(status.number), f"{status.meaning}: {status.text}") for status in commands.STATUSES])


def of_command(command):
    lines = [f"usage: toarnyk {commands.usage_line(command)}", ""]
    lines += textwrap.wrap(command.summary[0].upper() + command.summary[1:] + ".", WIDTH) + [""]
    lines += textwrap.wrap(command.text, WIDTH)
    if command.options:
        lines += ["", "Options:"]
        lines += rows([option_row(commands.OPTIONS[name]) for name in command.options])
    if command.name == "lint":
        import lint

        lines += ["", "Kinds of notes:", *rows([(kind.name, kind.text) for kind in lint.KINDS])]
    if command.name in ("pins", "tree", "resolve", "check", "case", "trace", "code"):
        lines += ["", "Statuses:", *status_rows()]
    lines += ["", f"Example: toarnyk {command.example}"]
    return "\n".join(lines) + "\n"


def option_row(option):
    words = option.name if option.value is None else f"{option.name} {option.value}"
    return words, f"{option.summary} (default: {option.default})"
