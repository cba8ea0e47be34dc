"""The nearest of some names, for what a person may have meant."""
import difflib


def nearest(word, names, most=3, least=0.6):
    """The names nearest to a word, the nearest first; capitals make no difference. `least` is how like they must be, to 1."""
    by_capitals = {}
    for name in names:
        by_capitals.setdefault(name.upper(), name)
    found = difflib.get_close_matches(word.upper(), by_capitals, most, least)
    return [by_capitals[name] for name in found]
