"""Makes the man page and the completions from the one list: `pages.py` compares them, `pages.py --write` writes them."""
import os
import sys

import commands
import lint_kinds

HOME = os.path.dirname(os.path.dirname(os.path.abspath(__file__)))


def main(argv):
    stale = []
    for name, text in pages():
        file = os.path.join(HOME, name)
        if argv == ["--write"]:
            os.makedirs(os.path.dirname(file), exist_ok=True)
            with open(file, "w") as stream:
                stream.write(text)
        elif not os.path.isfile(file) or open(file).read() != text:
            stale.append(name)
    for name in stale:
        print(f"{name} is not what front/commands.py says: python3 front/pages.py --write")
    return 1 if stale else 0


def pages():
    yield "toarnyk.1", man_page()
    yield "completions/toarnyk.bash", bash()
    yield "completions/toarnyk.zsh", zsh()


# ---- the man page ----


def roff(text):
    """Text for a man page: words between backquotes are bold."""
    text = text.replace("\\", "\\e").replace("-", "\\-")
    parts = text.split("`")
    joined = "".join(f"\\fB{part}\\fR" if number % 2 else part for number, part in enumerate(parts))
    return "\\&" + joined if joined.startswith((".", "'")) else joined


def man_page():
    lines = [
        '.TH TOARNYK 1 "2026-12-01" "toarnyk" "User Commands"',
        ".SH NAME",
        "toarnyk \\- a resolver for pins and clock tree of STM32F405, F407, F42x and F43x",
        ".SH SYNOPSIS",
    ]
    usages = [f".B toarnyk {roff(commands.usage_line(command))}" for command in commands.COMMANDS.values()]
    lines += "\n.br\n".join(usages).split("\n")
    lines += [
        ".SH DESCRIPTION",
        roff("TABLE is a part's table of alternate functions (JSON), PROJECT a project as STM32CubeMX writes it (.ioc). "
             "The program that answers is proved; what stands around it (messages on standard error, and the commands "
             "that are told so below) is not."),
        ".PP",
        roff("Options stand after the names, in any order. `--quiet` before the command takes away all that is added to "
             "what the program prints, but in a checkout the line that an older program answered."),
        ".SH COMMANDS",
    ]
    for command in commands.COMMANDS.values():
        around = "" if command.proved else " (Around the program, not proved.)"
        lines += [".TP", f".B {roff(commands.usage_line(command))}", roff(command.summary[0].upper() + command.summary[1:] + "."),
                  roff(command.text + around)]
    lines += man_lists()
    lines.append(".SH EXAMPLES")
    for command in commands.COMMANDS.values():
        lines += [".TP", f".B toarnyk {roff(command.example)}", roff(command.summary[0].upper() + command.summary[1:] + ".")]
    lines += [".SH SEE ALSO", "docs/FORMATS.md and README.md, which stand in share/doc/toarnyk of an installation."]
    return "\n".join(lines) + "\n"


def man_lists():
    """Options, kinds of notes, statuses and environment."""
    lines = [".SH OPTIONS"]
    for option in commands.OPTIONS.values():
        words = option.name if option.value is None else f"{option.name} {option.value}"
        takers = ", ".join(name for name, command in commands.COMMANDS.items() if option.name in command.options)
        lines += [".TP", f".B {roff(words)}", roff(f"{option.summary[0].upper() + option.summary[1:]} (default: {option.default}). Of {takers}.")]
    lines.append(".SH NOTES OF LINT")
    for kind in lint_kinds.KINDS:
        lines += [".TP", f".B {roff(kind.name)}", roff(kind.text[0].upper() + kind.text[1:] + ".")]
    lines.append(".SH EXIT STATUS")
    for status in commands.STATUSES:
        lines += [".TP", f".B {status.number}", roff(f"{status.meaning[0].upper() + status.meaning[1:]}: {status.text}.")]
    lines.append(".SH ENVIRONMENT")
    for name, text in commands.ENVIRONMENT:
        lines += [".TP", f".B {roff(name)}", roff(text[0].upper() + text[1:] + ".")]
    return lines


# ---- the completions ----


def cases(indent, pairs):
    return "".join(f"{indent}{name}) {text} ;;\n" for name, text in pairs)


def role_pairs():
    """For each command and place of its names, what is due there."""
    for command in commands.COMMANDS.values():
        for place, name in enumerate(command.names, 1):
            yield f"{command.name}:{place}", name.strip("[]")


def is_number(place, role):
    return (place.partition(":")[0], role) in commands.NUMBERS or role == commands.REQUESTS


def value_pairs():
    for option in commands.OPTIONS.values():
        if option.value is not None:
            yield option.name, option


def words_of_value(option):
    if option.name == "--off":
        return " ".join(kind.name for kind in lint_kinds.KINDS)
    return " ".join(option.values)


BASH_ROLES = {
    "TABLE": "_toarnyk_files json",
    "PROJECT": "_toarnyk_files ioc",
    "PROOF": "_toarnyk_files '*'",
    "PREFIX": 'COMPREPLY=($(compgen -d -- "$word"))',
    "COMMAND": 'COMPREPLY=($(compgen -W "$commands" -- "$word"))',
}

SIGNALS = r"""sed -n 's/.*"name": *"\([^"]*\)".*"at": *\[.*/\1/p'"""


def bash():
    head = "# Completion for bash, made by front/pages.py from front/commands.py.\n"
    options = cases("        ", ((command.name, f'options="{" ".join(command.options)}"') for command in commands.COMMANDS.values() if command.options))
    names = cases("        ", ((command.name, f"names={len(command.names)}") for command in commands.COMMANDS.values()))
    values = cases("        ", ((name, bash_value(option)) for name, option in value_pairs()))
    roles = cases("        ", ((place, ":" if is_number(place, role) else BASH_ROLES.get(role, BASH_ROLES["PROOF"])) for place, role in role_pairs()))
    return head + BASH.replace("@COMMANDS@", " ".join(commands.COMMANDS)).replace("@OPTIONS@", options).replace(
        "@NAMES@", names).replace("@VALUES@", values).replace("@ROLES@", roles).replace("@SIGNALS@", SIGNALS)


def bash_value(option):
    words = words_of_value(option)
    if words:
        return f'COMPREPLY=($(compgen -W "{words}" -- "$word")); return'
    if option.value == "SIGNAL":
        return 'COMPREPLY=($(compgen -W "$(_toarnyk_signals "${COMP_WORDS[first + 1]}")" -- "$word")); return'
    return "_toarnyk_files c; return" if option.value == "FILE" else "return"


BASH = r"""
_toarnyk_files() {
    local file
    compopt -o filenames 2>/dev/null
    COMPREPLY=($(compgen -d -- "$word"))
    while IFS= read -r file; do COMPREPLY+=("$file"); done < <(compgen -f -X "!*.$1" -- "$word")
    [ "$1" != '*' ] || COMPREPLY=($(compgen -f -- "$word"))
}

# the signals of a table that have rows; one signal a line, as in tables/
_toarnyk_signals() {
    [ ! -f "$1" ] || @SIGNALS@ "$1"
}

_toarnyk() {
    local IFS=$' \t\n' commands='@COMMANDS@'
    local word=${COMP_WORDS[COMP_CWORD]} before=${COMP_WORDS[COMP_CWORD - 1]} first=1 options='' names=0
    COMPREPLY=()
    [ "${COMP_WORDS[1]}" != --quiet ] || first=2
    if [ "$COMP_CWORD" -le "$first" ]; then
        COMPREPLY=($(compgen -W "$commands --quiet --help --version" -- "$word"))
        return
    fi
    local command=${COMP_WORDS[first]}
    case $command in
@OPTIONS@    esac
    case $command in
@NAMES@    esac
    if [ $((COMP_CWORD - first)) -gt "$names" ]; then
        case $before in
@VALUES@        esac
        COMPREPLY=($(compgen -W "$options" -- "$word"))
        return
    fi
    case $command:$((COMP_CWORD - first)) in
@ROLES@    esac
}

complete -F _toarnyk toarnyk
"""

ZSH_ROLES = {
    "TABLE": "_files -g '*.json(-.)'",
    "PROJECT": "_files -g '*.ioc(-.)'",
    "PROOF": "_files",
    "PREFIX": "_files -/",
    "COMMAND": "compadd -a commands",
}


def zsh():
    head = "#compdef toarnyk\n# Completion for zsh, made by front/pages.py from front/commands.py.\n"
    described = "".join(f"        '{command.name}:{command.summary.replace(chr(39), '')}'\n" for command in commands.COMMANDS.values())
    options = cases("        ", ((command.name, "options=(" + " ".join(command.options) + ")") for command in commands.COMMANDS.values() if command.options))
    names = cases("        ", ((command.name, f"names={len(command.names)}") for command in commands.COMMANDS.values()))
    values = cases("            ", ((name, zsh_value(option)) for name, option in value_pairs()))
    roles = cases("        ", ((place, "_message number" if is_number(place, role) else ZSH_ROLES.get(role, ZSH_ROLES["PROOF"])) for place, role in role_pairs()))
    return head + ZSH.replace("@DESCRIBED@", described).replace("@COMMANDS@", " ".join(commands.COMMANDS)).replace(
        "@OPTIONS@", options).replace("@NAMES@", names).replace("@VALUES@", values).replace("@ROLES@", roles).replace("@SIGNALS@", SIGNALS)


def zsh_value(option):
    words = words_of_value(option)
    if words:
        return f"compadd {words}; return"
    if option.value == "SIGNAL":
        return 'compadd -- $(_toarnyk_signals "${words[first + 1]}"); return'
    return "_files -g '*.c(-.)'; return" if option.value == "FILE" else f"_message {option.value}; return"


ZSH = r"""
# the signals of a table that have rows; one signal a line, as in tables/
_toarnyk_signals() {
    [[ ! -f $1 ]] || @SIGNALS@ $1
}

_toarnyk() {
    local -a commands options described
    local first=2 names=0
    commands=(@COMMANDS@)
    described=(
@DESCRIBED@    )
    [[ ${words[2]} != --quiet ]] || first=3
    if (( CURRENT <= first )); then
        _describe command described
        compadd -- --quiet --help --version
        return
    fi
    case ${words[first]} in
@OPTIONS@    esac
    case ${words[first]} in
@NAMES@    esac
    if (( CURRENT - first > names )); then
        case ${words[CURRENT - 1]} in
@VALUES@        esac
        compadd -a -- options
        return
    fi
    case ${words[first]}:$(( CURRENT - first )) in
@ROLES@    esac
}

_toarnyk "$@"
"""

if __name__ == "__main__":
    sys.exit(main(sys.argv[1:]))
