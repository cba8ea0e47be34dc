"""The signals of a project at their pins, and which functions a signal's name stands for."""
import re
from typing import NamedTuple


class Placed(NamedTuple):
    """A signal at a pin that an `Mcu.Pin` lists; the line is that of its `Signal`."""

    signal: str
    pin: str
    line: int


def placed(project):
    found = []
    for line in project.pins():
        signal = project.of_pin(line.value, "Signal")
        if signal:
            found.append(Placed(signal.value, line.value, signal.number))
    return found


def functions_of(signal):
    """What a name stands for, so that two names of one function are known as such (tables/README.md, names)."""
    found = re.fullmatch(r"S_(TIM\d+)_(CH\d)_ETR", signal)
    if found:
        return {f"{found[1]}_{found[2]}", f"{found[1]}_ETR"}
    for pattern, name in (
        (r"S_(TIM\d+_\w+)", r"\1"),
        (r"FSMC_D(\d+)_DA\d+|FSMC_DA(\d+)", r"FSMC_D\1\2"),
        (r"FSMC_A16_CLE|FSMC_CLE", "FSMC_A16"),
        (r"FSMC_A17_ALE|FSMC_ALE", "FSMC_A17"),
        (r"COMP_DAC([12])_group", r"DAC_OUT\1"),
    ):
        match = re.fullmatch(pattern, signal)
        if match:
            return {match.expand(name)}
    return {signal}
