"""The kinds of notes that `lint` tells. Each gives pairs of a line and a text; line 0 is the project as a whole.

The texts have names as they stand in the inputs: who prints them makes them harmless.
"""
import re
from typing import Callable, NamedTuple

import blocks
import project as projects
from lint_clock import pll_output, usb_from_hsi
from lint_pins import functions_of, placed
from table import place_of, row_text


class Kind(NamedTuple):
    name: str
    text: str
    notes: Callable


def at_two_pins(project, table, needs):
    """One function at two pins, also under two names."""
    first = {}
    for one in placed(project):
        if table.use(one.signal) in ("input", "output", "analog") and not table.rows(one.signal):
            continue
        for function in sorted(functions_of(one.signal)):
            before = first.setdefault(function, one)
            if before is not one:
                yield one.line, (f"{one.signal} at {one.pin} is also at {before.pin} "
                                 f"(line {before.line}, {before.signal}): both are set up")
                break


def needed_though_placed(project, table, needs):
    """A `--need` for what the project has at a pin: the signal is then placed twice."""
    there = {function: one for one in placed(project) for function in functions_of(one.signal)}
    for name in needs:
        one = next((there[function] for function in sorted(functions_of(name)) if function in there), None)
        if one:
            yield one.line, (f"`--need {name}` asks for a second pin: "
                             f"{one.signal} is at {one.pin}")


def interrupt_number(project, table, needs):
    """GPXTIn names the EXTI line n, which is the pin's own number."""
    for one in placed(project):
        found, place = re.fullmatch(r"GPXTI(\d+)", one.signal), place_of(one.pin)
        if found and place and int(found[1]) != place[1]:
            yield one.line, f"{one.signal} at {one.pin}: the pin's EXTI line is {place[1]}, and the program goes by the pin"


def unlisted_pin(project, table, needs):
    """A signal of a pin that no Mcu.Pin lists: the program does not see it."""
    listed = {line.value for line in project.pins()}
    for key, line in project.keys.items():
        pin, dot, last = key.rpartition(".")
        if dot and last == "Signal" and pin not in listed and table.same_pin(pin):
            yield line.number, f"no `Mcu.Pin` line lists {pin}: {line.value} is passed over"


def no_row(project, table, needs):
    """A signal at a pin where it can't be: it will be moved."""
    for one in placed(project):
        rows = table.rows(one.signal)
        if rows and one.pin not in [pin for pin, _ in rows]:
            where = ", ".join(row_text(row) for row in rows)
            yield one.line, f"{one.signal} can't be at {one.pin}, and will be moved: it can be at {where}"


def shared_block(project, table, needs):
    """SPI and I2S of one number are one block, which is the one or the other."""
    signals = placed(project)
    for number in ("2", "3"):
        spi = next((one for one in signals if one.signal.startswith(f"SPI{number}_")), None)
        sound = next((one for one in signals if one.signal.startswith(f"I2S{number}_")), None)
        if spi and sound:
            yield max(spi.line, sound.line), (f"SPI{number} (line {spi.line}) and I2S{number} (line {sound.line}) are one "
                                              "block: it is the one or the other")


def timer_channel(project, table, needs):
    """A channel's pin that the project shares among several uses."""
    for key, line in project.keys.items():
        found = re.fullmatch(r"SH\.(S_TIM\d+_CH\d\w*)\.ConfNb", key)
        if found and line.value.isdigit() and int(line.value) > 1:
            uses = [project.get(f"SH.{found[1]}.{k}", "") for k in range(int(line.value))]
            yield line.number, f"{found[1]} has {line.value} users of one timer channel: {blocks.listed(uses)}"


FAMILIES = (
    ("RMII", r"ETH_(REF_CLK|CRS_DV)",
     ("ETH_REF_CLK", "ETH_MDIO", "ETH_MDC", "ETH_CRS_DV", "ETH_RXD0", "ETH_RXD1", "ETH_TX_EN", "ETH_TXD0", "ETH_TXD1")),
    ("MII", r"ETH_(TX_CLK|RX_CLK|RXD[23]|TXD[23]|RX_DV)",
     ("ETH_TX_CLK", "ETH_RX_CLK", "ETH_MDIO", "ETH_MDC", "ETH_RX_DV", "ETH_RXD0", "ETH_RXD1", "ETH_RXD2", "ETH_RXD3",
      "ETH_TX_EN", "ETH_TXD0", "ETH_TXD1", "ETH_TXD2", "ETH_TXD3")),
    ("USB OTG FS", r"USB_OTG_FS_\w+", ("USB_OTG_FS_DM", "USB_OTG_FS_DP")),
    ("USB OTG HS by its own transceiver", r"USB_OTG_HS_D[MP]", ("USB_OTG_HS_DM", "USB_OTG_HS_DP")),
    ("ULPI", r"USB_OTG_HS_ULPI_\w+",
     tuple(f"USB_OTG_HS_ULPI_{name}" for name in ("CK", "DIR", "NXT", "STP", *(f"D{k}" for k in range(8))))),
    ("SDIO", r"SDIO_\w+", ("SDIO_CK", "SDIO_CMD", "SDIO_D0")),
    ("SDIO of 4 bits", r"SDIO_D[1-3]", tuple(f"SDIO_D{k}" for k in range(4))),
    ("SDIO of 8 bits", r"SDIO_D[4-7]", tuple(f"SDIO_D{k}" for k in range(8))),
    ("SWD", r"SYS_JT(MS-SWDIO|CK-SWCLK)", ("SYS_JTMS-SWDIO", "SYS_JTCK-SWCLK")),
    *((f"CAN{k}", rf"CAN{k}_\w+", (f"CAN{k}_RX", f"CAN{k}_TX")) for k in (1, 2)),
    *((f"I2C{k}", rf"I2C{k}_\w+", (f"I2C{k}_SCL", f"I2C{k}_SDA")) for k in (1, 2, 3)),
)


def partial_interface(project, table, needs):
    """Part of an interface without the rest."""
    signals = placed(project)
    names = {one.signal for one in signals} | set(needs)
    for family, pattern, due in FAMILIES:
        first = next((one for one in signals if re.fullmatch(pattern, one.signal)), None)
        lacking = [name for name in due if name not in names]
        if first and lacking:
            yield first.line, f"{family} lacks {', '.join(lacking)}"


def pin_state(project, table, needs):
    """Outputs begin low, whatever PinState says."""
    for one in placed(project):
        line = project.of_pin(one.pin, "PinState")
        if line and line.value == "GPIO_PIN_SET":
            yield line.number, f"{one.pin} begins low all the same: the C text does not carry out PinState"


def open_drain(project, table, needs):
    """A plain output is push-pull, whatever the project asks for; of alternate functions the table decides."""
    for one in placed(project):
        for part in ("GPIO_ModeDefaultOutputPP", "GPIO_Mode", "GPIO_ModeDefaultPP"):
            line = project.of_pin(one.pin, part)
            entry = table.signals.get(one.signal, {})
            if line and line.value.endswith("_OD") and not entry.get("drain", False):
                yield line.number, f"{one.pin} is driven push-pull all the same: the C text does not carry out {part}"


def pull_key(project, table, needs):
    """CubeMX writes some pulls under other keys than GPIO_PuPd, which alone is read."""
    for one in placed(project):
        for part in ("GPIO_Pu", "GPIO_PuPdOD"):
            line = project.of_pin(one.pin, part)
            if line and line.value != "GPIO_NOPULL":
                yield line.number, f"{one.pin} has no pull all the same: the program reads GPIO_PuPd, and not {part}"


CARRIED = ("GPIO_PuPd", "GPIO_Speed", "GPIO_Label", "GPIO_ModeDefaultOutputPP", "GPIO_Mode", "GPIO_ModeDefaultPP", "GPIO_Pu",
           "GPIO_PuPdOD", "GPIO_ModeDefaultEXTI")


def other_key(project, table, needs):
    """Any other GPIO_ key of a pin."""
    signals = {one.pin: one for one in placed(project)}
    for key, line in project.keys.items():
        pin, _, part = key.rpartition(".")
        if pin in signals and part.startswith("GPIO_") and part not in CARRIED:
            yield line.number, f"{pin}: the C text does not carry out {part}"


def interrupt_edge(project, table, needs):
    """The C text makes the pin an input; line, edge and interrupt are left to others."""
    for one in placed(project):
        line = project.of_pin(one.pin, "GPIO_ModeDefaultEXTI")
        if line and table.use(one.signal) == "exti":
            yield line.number, f"{one.pin}: the C text makes it an input; the EXTI line, its edge and its interrupt are yours"


FAST = (
    (r"SDIO_(CK|CMD|D\d)", "SDIO"), (r"ETH_(?!MDC|MDIO)\w+", "Ethernet"), (r"FSMC_\w+", "FSMC"),
    (r"USB_OTG_HS_ULPI_\w+", "ULPI"), (r"USB_OTG_FS_D[MP]", "USB OTG FS"), (r"USB_OTG_HS_D[MP]", "USB OTG HS"),
    (r"SPI1_(SCK|MOSI|MISO)", "SPI1"), (r"SPI2_(SCK|MOSI|MISO)", "SPI2"), (r"SPI3_(SCK|MOSI|MISO)", "SPI3"),
    (r"I2S2_(MCK|CK|SD|WS)", "I2S2"), (r"I2S3_(MCK|CK|SD|WS)", "I2S3"), (r"RCC_MCO_[12]", "clock output"),
    (r"SYS_TRACE\w+", "trace"), (r"DCMI_\w+", "DCMI"),
)


def low_speed(project, table, needs):
    """Alternate functions of fast peripherals whose pins are at the low speed that an absent GPIO_Speed means."""
    for pattern, name in FAST:
        pins = [one for one in placed(project) if re.fullmatch(pattern, one.signal) and not project.of_pin(one.pin, "GPIO_Speed")]
        if pins:
            yield pins[0].line, (f"{name}: {blocks.listed([one.pin for one in pins], 24)} "
                                 "at low speed, since GPIO_Speed is absent")


def usb_hsi(project, table, needs):
    text = usb_from_hsi(projects.clock(project, table), {table.signals.get(one.signal, {}).get("ip") for one in placed(project)})
    if text:
        line = project.keys.get("RCC.PLLSourceVirtual")
        yield line.number if line else 0, text


def pll_range(project, table, needs):
    text = pll_output(projects.clock(project, table), table, {table.signals.get(one.signal, {}).get("ip") for one in placed(project)})
    if text:
        line = project.keys.get("RCC.PLLP") or project.keys.get("RCC.PLLN")
        yield line.number if line else 0, text


KINDS = (
    Kind("two-pins", "a signal that stands at two pins, also under two names of one function", at_two_pins),
    Kind("needed-twice", "a `--need` for a signal that the project has at a pin", needed_though_placed),
    Kind("interrupt-number", "GPXTIn at a pin whose number is not n", interrupt_number),
    Kind("unlisted-pin", "a signal of a pin that no `Mcu.Pin` lists", unlisted_pin),
    Kind("no-row", "a signal at a pin where the table has no row for it: it will be moved", no_row),
    Kind("shared-block", "SPI and I2S of one block", shared_block),
    Kind("timer-channel", "two users of one timer channel", timer_channel),
    Kind("partial-interface", "part of an interface without the rest (RMII, USB, SDIO, CAN, I2C, SWD)", partial_interface),
    Kind("pin-state", "an output that is to begin high: it begins low", pin_state),
    Kind("open-drain", "a pin that is to be open drain: it is driven push-pull", open_drain),
    Kind("pull-key", "a pull under a key that is not read (GPIO_Pu, GPIO_PuPdOD)", pull_key),
    Kind("other-key", "another GPIO_ key that the C text does not carry out", other_key),
    Kind("interrupt-edge", "an interrupt's pin: EXTI line and edge are left to your code", interrupt_edge),
    Kind("low-speed", "pins of a fast peripheral at the low speed that an absent GPIO_Speed means", low_speed),
    Kind("usb-hsi", "USB on a PLL that HSI feeds: HSI is not exact enough", usb_hsi),
    Kind("pll-range", "a PLL output above 168 MHz or below 24 MHz, which no limit here forbids", pll_range),
)
