"""What `lint` says of the project's own clock tree. Numbers are exact: fractions, and no float."""
from fractions import Fraction

HSI = 16_000_000
# by the table's version: F405 and F407, and F42x and F43x
MOST_PLL_OUTPUT = {1: (168_000_000, "DS8626"), 2: (180_000_000, "DS9405")}
LEAST_PLL_OUTPUT = 24_000_000
USERS_OF_48_MHZ = {"USB_OTG_FS", "USB_OTG_HS_FS"}


def is_pll_used(tree, table, ips):
    """Whether SYSCLK comes from the PLL, or a peripheral of the project needs its 48 MHz."""
    needing = {ip.get("name") for ip in table.data.get("ips", []) if ip.get("clock48", "none") != "none"}
    return tree.get("src") == "PLL" or bool(needing & ips)


def pll_output(tree, table, ips):
    """A PLL output divided by P that the data sheet does not have (main PLL characteristics).

    Where SYSCLK comes from it, the limit of SYSCLK forbids what is too fast.
    """
    if not is_pll_used(tree, table, ips) or not all(tree.get(name) for name in ("m", "n", "p")):
        return None
    source = tree.get("hse", 0) if tree.get("psrc") == "HSE" else HSI
    output = Fraction(source * tree["n"], tree["m"] * tree["p"])
    most, sheet = MOST_PLL_OUTPUT.get(table.data.get("version"), MOST_PLL_OUTPUT[1])
    if LEAST_PLL_OUTPUT <= output <= most or (output > most and tree["src"] == "PLL"):
        return None
    where = f"above {most // 1_000_000} MHz" if output > most else "below 24 MHz"
    return f"the PLL's output by P is {int(output):,} Hz, {where}: {sheet} has 24 to {most // 1_000_000} MHz, and no limit here forbids it"


def usb_from_hsi(tree, ips):
    """USB needs 48 MHz to 0.25 %, which the internal oscillator does not keep."""
    if not USERS_OF_48_MHZ & ips or tree.get("psrc") == "HSE":
        return None
    return "USB runs from the PLL that HSI feeds: HSI keeps 1 % at best, and USB wants 0.25 %; take a crystal"
