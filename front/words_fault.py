"""Words that are not of the grammar: which word, what could stand there, the nearest name."""
import re

import blocks
import commands
from near import nearest

PLACE = re.compile(r"usage: word (\d+)$")


def block(words, line):
    if not words:
        return None
    found = PLACE.match(line)
    number = int(found[1]) if found else 0
    command = commands.COMMANDS.get(words[0])
    if not command or not command.proved:
        return unknown_command(words)
    if number == 0:
        return None
    title, notes = complaint(command, words, number)
    helps = (f"usage: toarnyk {commands.usage_line(command)}", f"`toarnyk help {command.name}` tells each option")
    return blocks.Block(title, place(words, number), tuple(notes), helps)


def no_words():
    """Three lines for a call without words."""
    proved = ", ".join(name for name, command in commands.COMMANDS.items() if command.proved)
    around = ", ".join(name for name, command in commands.COMMANDS.items() if not command.proved)
    return (
        "toarnyk: usage: toarnyk COMMAND TABLE PROJECT [OPTION]..\n"
        f"toarnyk: commands: {proved}; and around them {around}\n"
        "toarnyk: `toarnyk help` tells what each is for\n"
    )


def place(words, number):
    """The words as a line, with the one at fault marked."""
    shown = ["toarnyk", *words] + ([" "] if number > len(words) else [])
    raw = [word.encode("utf-8", "surrogateescape") for word in shown]
    start = sum(len(word) + 1 for word in raw[:number])
    return blocks.Place(f"word {number}", 0, b" ".join(raw), start, start + len(raw[number]))


def unknown_command(words):
    title = f"there is no command {blocks.quoted(words[0])}"
    near = nearest(words[0], commands.COMMANDS)
    notes = (f"the nearest: {blocks.listed(near)}",) if near else ()
    return blocks.Block(title, place(words, 1), notes, ("`toarnyk help` lists the commands",))


def complaint(command, words, number):
    """What is wrong with the word of this number, and what is near."""
    names = command.names
    if number > len(words):
        return missing(command, words)
    if number <= 1 + len(names):
        name = names[number - 2]
        limits = commands.NUMBERS.get((command.name, name))
        notes = [whole_number(*limits)] if limits else ["requests stand before the options"]
        return f"{blocks.quoted(words[number - 1])} is no {name}", notes
    word, before = words[number - 1], words[number - 2]
    option = commands.OPTIONS.get(before)
    if option and option.value and before in command.options and is_value(command, words, number):
        return bad_value(option, word)
    return bad_option(command, words, number)


def missing(command, words):
    given = len(words) - 1
    if given < len(command.names):
        return f"`{command.name}` lacks its {command.names[given]}", []
    option = commands.OPTIONS.get(words[-1])
    return (f"`{option.name}` lacks its {option.value}" if option else "a word is due at the end"), []


def is_value(command, words, number):
    """Whether the word of this number is where the value of the option before it is due."""
    place, due = 1 + len(command.names), False
    while place < number:
        option = commands.OPTIONS.get(words[place])
        due = not due and option is not None and option.value is not None
        place += 1
        if place == number - 1:
            return due
    return False


def bad_value(option, word):
    title = f"{blocks.quoted(word)} is no value for `{option.name}`"
    if option.values:
        near = nearest(word, option.values)
        return title, [f"it is one of {', '.join(option.values)}"] + ([f"the nearest: {near[0]}"] if near else [])
    if option.limit:
        least, most = option.limit
        return title, [whole_number(least, most)]
    return title, []


def whole_number(least, most):
    return f"it is a whole number from {least:,} to {most:,}, written without commas, units or leading zeros"


def bad_option(command, words, number):
    word = words[number - 1]
    name, equals, _ = word.partition("=")
    if equals and name in command.options:
        return f"{blocks.quoted(word)} can't stand here", [f"the value is the next word: {name} {commands.OPTIONS[name].value}"]
    if word in command.options:
        return f"`{word}` stands twice", ["each option but `--need` is given at most once"]
    if word in commands.OPTIONS:
        takers = [f"`{other.name}`" for other in commands.COMMANDS.values() if word in other.options]
        return f"`{command.name}` takes no `{word}`", [f"it is an option of {', '.join(takers)}"]
    title = f"{blocks.quoted(word)} can't stand here"
    near = nearest(word, command.options)
    notes = [f"the nearest: {near[0]}"] if near else []
    if word in commands.COMMANDS:
        notes.append("the command is the first word")
    elif not word.startswith("-"):
        notes.append("options stand after the names, and each signal has a `--need` of its own"
                     if "--need" in command.options else "options stand after the names")
    return title, notes
