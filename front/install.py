"""`toarnyk install PREFIX`: program, tables, front, man page and completion, so that they run without the kit."""
import glob
import os
import shutil
import sys

import blocks

HOME = os.path.dirname(os.path.dirname(os.path.abspath(__file__)))

# where each file of the checkout goes under PREFIX
PLACES = (
    ("toarnyk", "bin"),
    ("front/*.*", "lib/toarnyk/front"),
    ("tables/*.json", "share/toarnyk/tables"),
    ("tables/README.md", "share/toarnyk/tables"),
    ("examples/*", "share/toarnyk/examples"),
    ("README.md", "share/doc/toarnyk"),
    ("docs/FORMATS.md", "share/doc/toarnyk/docs"),
    ("toarnyk.1", "share/man/man1"),
)
RENAMED = (
    ("completions/toarnyk.bash", "share/bash-completion/completions/toarnyk"),
    ("completions/toarnyk.zsh", "share/zsh/site-functions/_toarnyk"),
)


def main(argv):
    if len(argv) != 1 or argv[0].startswith("-"):
        sys.stderr.write("toarnyk: usage: toarnyk install PREFIX\n")
        return 2
    if not os.path.isfile(os.path.join(HOME, "crates.txt")):
        sys.stderr.write("toarnyk: install: call it from a checkout\n")
        return 2
    try:
        count = put_all(argv[0])
    except OSError as fault:
        sys.stderr.write(f"toarnyk: install: {blocks.harmless(str(fault.filename))}: {fault.strerror}\n")
        return 8
    sys.stdout.write(f"{count} files under {blocks.harmless(argv[0])}; the command is {blocks.harmless(os.path.join(argv[0], 'bin', 'toarnyk'))}\n")
    return 0


def put_all(prefix):
    program = os.environ["TOARNYK_PROGRAM"]
    pairs = [(program, "lib/toarnyk/resolver_cli")]
    proved = os.path.join(os.path.dirname(program), "proved")
    if os.path.isfile(proved):
        pairs.append((proved, "lib/toarnyk/proved"))
    for pattern, folder in PLACES:
        pairs += [(file, os.path.join(folder, os.path.basename(file))) for file in sorted(glob.glob(os.path.join(HOME, pattern)))]
    pairs += [(os.path.join(HOME, file), place) for file, place in RENAMED]
    for file, place in pairs:
        put(file, os.path.join(prefix, place))
    return len(pairs)


def put(file, target):
    """A copy under another name first, so that a program that runs keeps its own."""
    os.makedirs(os.path.dirname(target), exist_ok=True)
    shutil.copy(file, target + ".new")
    os.chmod(target + ".new", 0o755 if os.access(file, os.X_OK) else 0o644)
    os.replace(target + ".new", target)
