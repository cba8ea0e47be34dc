"""The limits of the clock tree as words, and how near each node of a tree is to its own."""
from dataclasses import dataclass

from view_svg import hertz, megahertz

LIMITS = {
    1: "two signals at one pin",
    2: "two interrupts on one line",
    3: "the external clock is in use, and has no pin or is outside its range",
    4: "the PLL's input is outside its range",
    5: "the PLL's VCO is outside its range",
    6: "SYSCLK is too fast",
    7: "HCLK is too fast for the voltage scale",
    8: "APB1 is too fast",
    9: "APB2 is too fast",
    10: "a peripheral needs exactly 48 MHz",
    11: "a peripheral needs at most 48 MHz",
    12: "HCLK is too slow for a peripheral",
    13: "the supply or HCLK is outside the flash's table",
    14: "HCLK is not what was asked for",
    15: "PCLK1 is not what was asked for",
    16: "PCLK2 is not what was asked for",
}
NODE_OF_LIMIT = {3: "HSE", 4: "VCO_IN", 5: "VCO", 6: "SYSCLK", 7: "HCLK", 8: "PCLK1", 9: "PCLK2", 10: "CLK48",
                 11: "CLK48", 12: "HCLK", 13: "HCLK", 14: "HCLK", 15: "PCLK1", 16: "PCLK2", 17: "FLASH"}
MHZ_48 = 48_000_000


@dataclass(frozen=True)
class Bound:
    """What a node must keep: `least` and `most` in hertz (None where there is none), short for the drawing and in words
    for the table."""

    least: int
    most: int
    short: str
    words: str

    def is_kept(self, value):
        return (self.least is None or value >= self.least) and (self.most is None or value <= self.most)

    def share(self, value):
        """How far the node is on its way from the least to the most, between 0 and 1."""
        least = self.least or 0
        if self.most is None or self.most <= least:
            return 1.0 if self.is_kept(value) else 0.0
        return min(1.0, max(0.0, (value - least) / (self.most - least)))

    def near(self, value):
        if not self.is_kept(value):
            return "broken"
        if value in (self.least, self.most):
            return "exact" if self.least == self.most else "at its most" if value == self.most else "at its least"
        return f"{100 * value // self.most} %" if self.most else ""


def between(pair, what):
    low, high = pair
    return Bound(low, high, f"{megahertz(low)[:-4]}–{megahertz(high)}", f"{what} {megahertz(low)} to {megahertz(high)}")


def at_most(high, what):
    return Bound(None, high, f"at most {megahertz(high)}", f"{what} at most {megahertz(high)}")


def flash_most(table, vdd):
    """The greatest HCLK that the flash takes at a supply, or None outside its table."""
    rows = [row for row in table.raw["flash"] if row["from"] <= vdd <= row["to"]]
    return max(rows[0]["rows"]) if rows else None


def hclk_bound(table, clock, ips, wish):
    scale = next((s["max"] for s in table.raw["scales"] if s["vos"] == clock.step), None)
    flash = flash_most(table, clock.vdd)
    floor = max([ip.get("floor", 0) for ip in ips], default=0)
    most = min(value for value in (scale, flash or 0) if value is not None)
    words = [f"voltage scale {clock.scale}: at most {megahertz(scale)}" if scale else "",
             f"flash at {clock.vdd} mV: at most {megahertz(flash)}" if flash else f"flash: no row for {clock.vdd} mV"]
    words += [f"{ip['name']}: at least {megahertz(ip['floor'])}" for ip in ips if ip.get("floor")]
    words += [f"asked for: {hertz(wish)}"] if wish else []
    short = f"{megahertz(floor)[:-4]}–{megahertz(most)}" if floor else f"at most {megahertz(most)}"
    return Bound(floor or None, most, short, "; ".join(word for word in words if word))


def clk48_bound(ips):
    exact = [ip["name"] for ip in ips if ip.get("clock48") == "exact"]
    most = [ip["name"] for ip in ips if ip.get("clock48") == "most"]
    if exact:
        return Bound(MHZ_48, MHZ_48, "exactly 48 MHz", f"exactly 48 MHz for {', '.join(exact)}")
    return at_most(MHZ_48, f"for {', '.join(most)}:") if most else None


def speeds_of(table, clock):
    """The limits of SYSCLK, PCLK1 and PCLK2: those with over-drive have a place of their own."""
    limits = table.raw["limits"]
    return limits["over"] if clock.over else limits


def bus_bound(speeds, key, wish):
    bound = at_most(speeds[key], "the bus:")
    return bound if wish is None else Bound(None, bound.most, bound.short, f"{bound.words}; asked for: {hertz(wish)}")


def bounds_of(table, clock, ips, wishes):
    """What each node must keep; a node without a limit of its own is missing."""
    limits, speeds = table.raw["limits"], speeds_of(table, clock)
    bounds = {
        "VCO_IN": between(limits["vco_in"], "the PLL's input:"),
        "VCO": between(limits["vco"], "the VCO:"),
        "SYSCLK": at_most(speeds["sysclk"], "the part:"),
        "HCLK": hclk_bound(table, clock, ips, wishes.get("--hclk")),
        "PCLK1": bus_bound(speeds, "pclk1", wishes.get("--pclk1")),
        "PCLK2": bus_bound(speeds, "pclk2", wishes.get("--pclk2")),
        "CLK48": clk48_bound(ips),
    }
    if clock.hse:
        kind = clock.hse[0]
        bounds["HSE"] = between(limits["crystal" if kind == "crystal" else "bypass"], f"{kind}:")
    return {name: bound for name, bound in bounds.items() if bound}
