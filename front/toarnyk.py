"""The front of the command `toarnyk`: help, code, lint, view, install, and the messages behind a refusal.

The shell script `toarnyk` calls it with its words; the environment variable TOARNYK_PROGRAM is the proved program.
"""
import importlib
import os
import sys

sys.path.insert(0, os.path.dirname(os.path.abspath(__file__)))

USAGE = 2
UNWRITTEN = 8
# what the script answers too where a file of its own is not there
MISSING = 70
MODULES = {
    "--hints": "hints",
    "help": "help_text",
    "--version": "version",
    "code": "code_text",
    "lint": "lint",
    "view": "toarnyk_view",
    "install": "install",
}


def main(argv):
    name, rest = (argv[0], argv[1:]) if argv else ("help", [])
    if name in ("--help", "-h"):
        name = "help"
    elif name == "hints-without-words":
        return no_words()
    elif rest == ["--help"] and name != "--hints":
        name, rest = "help", [name]
    if name not in MODULES:
        sys.stderr.write("toarnyk: the front has no such command\n")
        return USAGE
    try:
        module = importlib.import_module(MODULES[name])
    except ModuleNotFoundError as fault:
        if fault.name != MODULES[name]:
            raise
        sys.stderr.write(f"toarnyk: `{name}` is not there: front/{MODULES[name]}.py is missing\n")
        return MISSING
    return module.main(rest) or 0


def no_words():
    import words_fault

    sys.stderr.write(words_fault.no_words())
    return USAGE


def run(argv):
    """`main`, where a message that can't be made is left out, and a reader that has gone ends it with the status of that."""
    if sys.stdout is None or sys.stderr is None:
        return UNWRITTEN
    for stream in (sys.stdout, sys.stderr):
        stream.reconfigure(errors="backslashreplace")
    try:
        status = main(argv)
        sys.stdout.flush()
        return status
    except OSError as fault:
        if not isinstance(fault, BrokenPipeError) and argv[:1] != ["--hints"]:
            sys.stderr.write(f"toarnyk: {fault.strerror or fault}\n")
        os.dup2(os.open(os.devnull, os.O_WRONLY), sys.stdout.fileno())
        return UNWRITTEN
    except KeyboardInterrupt:
        return 130
    except Exception:
        if argv[:1] == ["--hints"] and not os.environ.get("TOARNYK_DEBUG"):
            return 0
        raise


if __name__ == "__main__":
    sys.exit(run(sys.argv[1:]))
