"""The texts of the program, the board and the page that `toarnyk view` makes of them."""
import collections
import html
import os
import pathlib
import re
import subprocess
import sys
import tempfile
import unittest

import view_cases as cases

from toarnyk_view import best_hall, options_of
from view_answers import Unreadable, read_placement, read_refutation, read_report, read_tree
from view_board import Wanted, hall_sets, ips_in_use, places_of, values_of
from view_clock import cells_of, changes_of
from view_inputs import keys_of, read_project, read_table
from view_limits import bounds_of
from view_package import asides
from view_svg import cut, esc, hertz, megahertz

VIEW = cases.HERE.parent / "toarnyk_view.py"

READERS = {
    ("resolve", 0): read_report, ("pins", 0): read_placement,
    ("resolve", 1): lambda text, pins: read_refutation(text), ("tree", 0): lambda text, pins: read_tree(text),
}


def small():
    table, project = read_table(cases.table_bytes()), read_project(cases.PROJECT.encode())
    return table, project, read_report(cases.REPORT, table.pins)


class Inputs(unittest.TestCase):
    def test_table(self):
        table = read_table(cases.table_bytes())
        self.assertEqual([(row.pin, row.mode) for row in table.rows["I2C1_SCL"]], [("PB6", "AF4"), ("PB8", "AF4")])
        self.assertEqual([(row.pin, row.mode) for row in table.rows["RCC_OSC_IN"]], [("PH0-OSC_IN", "OSC")])
        self.assertEqual(table.rows["GPIO_Output"], ())
        self.assertEqual((table.numbers()["PH0-OSC_IN"], table.numbers()["PB8"]), (2, 16))
        self.assertNotIn("VDD", table.numbers())

    def test_numbers_that_lack_a_pin_are_not_used(self):
        self.assertEqual(read_table(cases.table_bytes(package_pins=["PA9"])).package_pins, ())
        self.assertEqual(read_table(cases.table_bytes(package_pins=7)).package_pins, ())

    def test_project(self):
        project = read_project(cases.PROJECT.encode())
        self.assertEqual([(pin.name, pin.signal, pin.locked) for pin in project.pins],
                         [("PB6", "I2C1_SCL", False), ("PB7", "GPIO_Output", True), ("PB10", "-", False)])
        self.assertEqual(project.pins[0].label, "Audio =clock")
        self.assertEqual(project.marks, {"RNG_VS_RNG"})

    def test_keys(self):
        self.assertEqual(keys_of("a\\=b=c=d\r\n#e=f\ng=\\ h"), {"a=b": "c=d", "g": " h"})


class Answers(unittest.TestCase):
    def test_report(self):
        report = small()[2]
        self.assertEqual((report.rank.rank, report.rank.cost, report.rank.choices), (7, 1, 4))
        self.assertEqual([(p.pin, p.signal, p.mode, p.state) for p in report.placed[:3:2]],
                         [("PB8", "I2C1_SCL", "AF4", "moved"), ("PB10", "-", "HELD", "kept")])
        self.assertEqual(report.clock.pll, ("HSE", 8, 336, 2, 7))
        self.assertEqual((report.clock.nodes["PCLK1"], report.clock.wait, report.code), (42000000, "5", cases.CODE))

    def test_a_proof_behind_the_report_is_passed_over(self):
        table = read_table(cases.table_bytes())
        self.assertEqual(read_report(cases.REPORT + "proof 1\nbound 7\nend\n", table.pins).code, cases.CODE)

    def test_tree_whose_pll_is_off(self):
        text = re.sub(r"(VCO_IN|VCO|CLK48) \d+", r"\1 off", cases.CLOCK).replace("pll HSE 8 336 2 7", "pll off")
        clock, broken = read_tree(text.replace("hse crystal 8000000", "hse off") + "limits met\n")
        self.assertEqual((clock.pll, clock.hse, clock.nodes["VCO"], broken), (None, None, None, None))
        self.assertEqual(read_tree(cases.TREE)[1], 10)

    def test_over_drive_is_a_power_step_of_its_own(self):
        self.assertEqual(read_tree(cases.TREE)[0].step, 1)
        clock = read_tree(cases.CLOCK.replace("vos 1", "vos 1 over") + "limits met\n")[0]
        self.assertEqual((clock.step, clock.scale), (4, "1 with over-drive"))

    def test_refutation(self):
        nodes = read_refutation("proof 1\nbound none\nS 11 0\nL 13\nS 10 1\nH pins 10 11\nR\nend\n")
        self.assertEqual([(n.kind, n.path) for n in nodes], [
            ("S", ()), ("L", ((11, 0, False),)), ("S", ((11, 0, True),)),
            ("H", ((11, 0, True), (10, 1, False))), ("R", ((11, 0, True), (10, 1, True)))])

    def test_other_texts_are_refused(self):
        pins = read_table(cases.table_bytes()).pins
        for text in ("", "no choice\n", cases.REPORT.replace("cost 1 of 4", "cost 1"), cases.REPORT.replace("PB7 ", "PZ7 "),
                     cases.PLACEMENT + cases.CLOCK):
            with self.assertRaises(Unreadable):
                read_report(text, pins)
        with self.assertRaises(Unreadable):
            read_placement(cases.PLACEMENT.replace("pins 4", "pins 9"), pins)
        with self.assertRaises(Unreadable):
            read_refutation("proof 1\nbound none\nL 3\nL 4\nend\n")


class WholeTexts(unittest.TestCase):
    def test_every_text_of_the_checks_is_read(self):
        sys.path.insert(0, str(cases.HERE.parent.parent / "checks"))
        import runs
        counts = collections.Counter()
        with tempfile.TemporaryDirectory() as folder:
            at = pathlib.Path(folder)
            for words, lines, status in runs.all_runs(at):
                command, text = words[0] if words else "", "\n".join(lines) + "\n"
                if "..." in lines or (command, status) not in READERS:
                    continue
                pins = read_table((at / words[1]).read_bytes()).pins
                with self.subTest(words=words):
                    READERS[command, status](text, pins)
                counts[command, status] += 1
        self.assertEqual(set(counts), set(READERS))


class Board(unittest.TestCase):
    def test_places(self):
        table, project, report = small()
        moved, output, held, need = places_of(report.placed, project, table)
        self.assertEqual((moved.home, moved.label, moved.kind), ("PB6", "Audio =clock", "moved"))
        self.assertEqual([row.pin for row in moved.others], ["PB6"])
        self.assertEqual((output.locked, output.others, held.kind, held.title), (True, (), "held", "held"))
        self.assertEqual((need.home, [row.pin for row in need.others]), (None, ["PA9"]))

    def test_values_have_the_home_first_and_then_table_order(self):
        table = small()[0]
        self.assertEqual(values_of("USART1_TX", None, False, table), ("PA9", "PB6"))
        self.assertEqual(values_of("USART1_TX", "PB6", False, table), ("PB6", "PA9"))
        self.assertEqual(values_of("USART1_TX", "PB6", True, table), ("PB6",))
        self.assertEqual(values_of("GPIO_Output", "PB7", False, table), ("PB7",))

    def test_a_set_has_the_pins_that_its_box_leaves(self):
        table, project, _ = small()
        nodes = read_refutation("proof 1\nbound none\nS 10 0\nH pins 10 13\nL 3\nend\n")
        hall = best_hall(hall_sets(nodes, project, ["USART1_TX"], table))
        self.assertEqual([(w.signal, w.pins) for w in hall.wanted], [("I2C1_SCL", ("PB6",)), ("USART1_TX", ("PA9", "PB6"))])
        self.assertEqual((hall.lines, hall.pins()), (False, ("PB6", "PA9")))
        self.assertIsNone(best_hall(hall_sets(read_refutation("proof 1\nbound none\nL 13\nend\n"), project, [], table)))

    def test_lines_to_one_pin_end_beside_each_other(self):
        wanted = [Wanted("A", ("PB6",), False, False), Wanted("B", ("PA9", "PB6"), True, False), Wanted("C", ("PB7",), False, False)]
        self.assertEqual(asides(wanted, 6), {(0, "PB6"): -3, (1, "PB6"): 3, (1, "PA9"): 0, (2, "PB7"): 0})
        # however many they are, they stay within the pin
        far = asides([Wanted(name, ("PB6",), False, False) for name in "ABCDE"], 6)
        self.assertEqual([round(far[index, "PB6"], 1) for index in range(5)], [-4.8, -2.4, 0, 2.4, 4.8])

    def test_peripherals_in_use(self):
        table, project, _ = small()
        self.assertEqual([ip["name"] for ip in ips_in_use(table, project, ["USB_OTG_FS_VBUS"])], ["USB_OTG_FS", "RNG"])
        self.assertEqual([ip["name"] for ip in ips_in_use(table, read_project(b""), ["I2C1_SCL"])], [])


class Clocks(unittest.TestCase):
    def cells(self, vdd=3300, signals=("USB_OTG_FS_VBUS",)):
        table, project, report = small()
        clock = read_tree(cases.CLOCK.replace("vdd 3300", f"vdd {vdd}") + "limits met\n")[0]
        old, broken = read_tree(cases.TREE.replace("vdd 3300", f"vdd {vdd}"))
        return cells_of(table, clock, old, ips_in_use(table, project, signals), {}, None)

    def test_how_near_each_node_is(self):
        cells = self.cells()
        self.assertEqual((cells["VCO_IN"].near, cells["VCO"].near, cells["HCLK"].near), ("at its least", "77 %", "at its most"))
        self.assertEqual((cells["PCLK1"].near, cells["CLK48"].near, cells["HSE"].near), ("at its most", "exact", "30 %"))
        self.assertEqual((cells["APB1TIM"].limit, cells["HCLK"].limit), ("", "14.200001–168\u00a0MHz"))

    def test_what_differs_from_the_project(self):
        cells = self.cells()
        self.assertEqual((cells["CLK48"].state, cells["CLK48"].was), ("changed", f"VCO ÷ 4, {hertz(84000000)}"))
        self.assertEqual((cells["HCLK"].state, cells["HCLK"].was), ("same", ""))
        new, old = read_tree(cases.CLOCK + "limits met\n")[0], read_tree(cases.TREE)[0]
        self.assertEqual(changes_of(new, old), [("PLLQ", 4, 7)])

    def test_the_flash_may_hold_hclk_lower_than_the_scale(self):
        cells = self.cells(vdd=1800)
        self.assertEqual((cells["HCLK"].limit, cells["HCLK"].state), ("14.200001–160\u00a0MHz", "broken"))
        self.assertEqual(self.cells(vdd=2500)["HCLK"].state, "broken")

    def test_of_over_drive_and_waits_what_changed_is_told(self):
        limits = dict(cases.TABLE["limits"], over={"sysclk": 180000000, "pclk1": 45000000, "pclk2": 90000000})
        table, old = read_table(cases.table_bytes(limits=limits)), read_tree(cases.TREE)[0]
        over = read_tree(cases.CLOCK.replace("vos 1", "vos 1 over") + "limits met\n")[0]
        slow = read_tree(cases.CLOCK.replace("vos 1", "vos 2").replace("wait 5", "wait 4") + "limits met\n")[0]
        told = [cells_of(table, clock, before, [], {}, None)["FLASH"] for clock, before in ((over, old), (slow, old), (old, over), (old, old))]
        self.assertEqual([(cell.value, cell.revalued, cell.made, cell.was, cell.state) for cell in told], [
            ("5 waits", False, "over-drive", "no over-drive", "changed"),
            ("4 waits", True, "scale 2", "5 waits, scale 1", "changed"),
            ("5 waits", False, "scale 1", "over-drive", "changed"),
            ("5 waits", False, "scale 1", "", "same"),
        ])

    def test_no_limit_where_no_peripheral_needs_48_mhz(self):
        table = small()[0]
        clock = read_tree(cases.TREE)[0]
        self.assertNotIn("CLK48", bounds_of(table, clock, [], {}))


class Texts(unittest.TestCase):
    def test_escapes(self):
        self.assertEqual(esc("<a href='\"&\x1b\u202e\n"), "&lt;a href=&#x27;&quot;&amp;\ufffd\ufffd\ufffd")
        self.assertEqual((cut("abcdef", 4), cut("abcd", 4)), ("abc…", "abcd"))
        self.assertEqual((megahertz(1500000), megahertz(42000000), megahertz(14200001)),
                         ("1.5\u00a0MHz", "42\u00a0MHz", "14.200001\u00a0MHz"))

    def test_options(self):
        self.assertEqual(options_of(["--proof", "--need", "--vdd", "--vdd", "1800"]),
                         [("--proof", ""), ("--need", "--vdd"), ("--vdd", "1800")])


class Pages(unittest.TestCase):
    """Whole calls, with a program that prints what it is told to."""

    def call(self, answers, *words, **changes):
        """The status, the page and the messages; `answers` has text and status for each command."""
        with tempfile.TemporaryDirectory() as folder:
            at = pathlib.Path(folder)
            (at / "table.json").write_bytes(cases.table_bytes(**changes.get("table", {})))
            (at / "board.ioc").write_text(changes.get("project", cases.PROJECT))
            lines = ["#!/bin/sh", "case $1 in"]
            for command, (text, status) in answers.items():
                (at / f"{command}.txt").write_text(text)
                lines.append(f'{command}) cat "{at}/{command}.txt"; exit {status};;')
            (at / "program").write_text("\n".join(lines + ["esac", "echo 'usage: word 1'; exit 2", ""]))
            (at / "program").chmod(0o755)
            done = subprocess.run([sys.executable, VIEW, at / "table.json", at / "board.ioc", *words], capture_output=True,
                                  env={**os.environ, "TOARNYK_PROGRAM": str(at / "program"), "TOARNYK_HINTS": "no"})
            return done.returncode, done.stdout.decode(), done.stderr.decode()

    def shows(self, part, page, least=1):
        """Without the whole page in the message."""
        found = page.count(part)
        self.assertTrue(found >= least and bool(found) == bool(least), f"{part!r} stands {found} times")

    def test_a_report(self):
        status, page, said = self.call({"resolve": (cases.REPORT, 0), "tree": (cases.TREE, 0)}, "--need", "USART1_TX")
        self.assertEqual((status, said), (0, ""))
        self.shows("4 signals placed, 1 of them for a need, 1 moved, 1 clock setting changed.", page)
        self.shows('moves from <span class="old">PB6 (pin 13)</span> to <b>PB8 (pin 16)</b>', page)
        self.shows('PLLQ changes from <span class="old">4</span> to <b>7</b>', page)
        code = html.unescape(re.search(r'<pre id="text".*?><code>(.*?)</code>', page, re.DOTALL)[1])
        self.assertEqual(code, cases.CODE)
        # each pin stands in the wide and in the narrow drawing
        self.assertEqual(len(re.findall(r'<g class="pin ', page)), 32)
        self.assertEqual(len(re.findall(r'<path class="arrow"', page)), 2)

    def test_what_a_screen_reader_says(self):
        """As it was heard from Orca with Chromium."""
        page = self.call({"resolve": (cases.REPORT, 0), "tree": (cases.TREE, 0)}, "--need", "USART1_TX",
                         project=cases.PROJECT.replace("PB7.Locked", "PB7.GPIO_Label=PB7\nPB7.Locked"))[1]
        # what a pin is, in the wide and in the narrow drawing, with each thing told once
        for name in ("PB8, pin 16: I2C1_SCL, AF4, “Audio =clock”, moved from PB6 (pin 13). It could also be at PB6 (pin 13): USART1_TX.",
                     "PB7, pin 14: GPIO_Output, OUTPUT, kept, locked.",
                     "PB6, pin 13: USART1_TX, AF7, placed for a need. It could also be at PA9 (pin 5): free."):
            self.assertEqual(page.count(f'aria-label="{name}"'), 2, name)
        self.shows("PB10, pin 8: held.", page)
        # a number is one number, and an empty cell is empty
        gap = '<span class="gap"></span>'
        self.shows(f">336{gap}000{gap}000\u00a0Hz<", page)
        self.shows('<span aria-hidden="true">–</span>', page)
        # the text below the package is the name of the pin that has the focus: it is not said twice; nor is an empty status
        self.shows('<p id="about" aria-hidden="true"', page)
        self.shows('<span id="copied" aria-live="polite"></span>', page)
        self.shows('role="status"', page, 0)
        # lines, and colours
        self.shows('<g class="lines" aria-hidden="true">', page, 2)
        self.shows('<ul class="legend" aria-hidden="true">', page)

    def test_a_setting_that_had_no_value(self):
        off = re.sub(r"(VCO_IN|VCO|CLK48) \d+", r"\1 off", cases.TREE).replace("pll HSE 8 336 2 4", "pll off")
        page = self.call({"resolve": (cases.REPORT, 0), "tree": (off, 0)})[1]
        self.shows('PLL source changes from <span class="old">off</span> to <b>HSE</b></li><li>PLLM is <b>8</b></li>', page)

    def test_a_page_takes_nothing_from_outside(self):
        page = self.call({"resolve": (cases.REPORT, 0), "tree": (cases.TREE, 0)})[1]
        self.assertEqual(re.findall(r"(?:src|href)=[\"'](?!#)|url\((?!#)|@import", page), [])

    def test_a_refutation(self):
        refuted = {"resolve": (cases.REFUTATION, 1), "tree": (cases.TREE, 0), "pins": ("no choice\n", 1)}
        status, page, _ = self.call(refuted)
        self.assertEqual(status, 1)
        self.shows("Nothing fits", page)
        self.shows("2 signals want 3 pins: I2C1_SCL “Audio =clock” and a held pin have only PB6, PB8 and PB10 between them.", page)
        self.shows("it breaks limit 10: a peripheral needs exactly 48 MHz", page)
        self.shows("wanted by too many</li>", page)
        self.shows('PB10, pin 8: held. Too many signals want it."', page)
        self.shows('PB7, pin 14: GPIO_Output, OUTPUT, kept, locked."', page)
        self.shows("a signal that wants it</li></ul>", page)
        self.shows("C text</h2>", page, 0)
        status, page, _ = self.call({**refuted, "explain": ("because <so>\n", 0)})
        self.shows("because &lt;so&gt;\n", page)

    def test_a_limit_that_nothing_meets(self):
        status, page, _ = self.call({"resolve": ("proof 1\nbound none\nL 13\nend\n", 1), "tree": (cases.TREE, 0),
                                     "pins": (cases.PLACEMENT, 0)})
        self.assertEqual(status, 1)
        self.shows("Limit 13, whatever is chosen: the supply or HCLK is outside the flash&#x27;s table.", page)

    def test_interrupts_of_one_line(self):
        project = "Mcu.Pin0=PB0\nPB0.Signal=GPXTI0\nMcu.Pin1=PH0-OSC_IN\nPH0-OSC_IN.Signal=GPXTI0\n"
        status, page, _ = self.call({"resolve": ("proof 1\nbound none\nH exti 10 11\nend\n", 1), "tree": (cases.TREE, 0),
                                     "pins": ("no choice\n", 1)}, project=project)
        self.assertEqual(status, 1)
        self.shows("2 interrupts want 1 interrupt line: the pins PB0 and PH0-OSC_IN have the number 0.", page)

    def test_ranks_that_are_too_wide(self):
        wide = {"resolve": ("too wide: variable 40\n", 7), "tree": (cases.TREE, 0), "pins": (cases.PLACEMENT, 0)}
        status, page, _ = self.call(wide)
        self.assertEqual(status, 7)
        self.shows("The pins fit", page)
        status, page, said = self.call({**wide, "pins": ("too wide: variable 30\n", 7)})
        self.assertEqual((status, page, said), (7, "", "too wide: variable 30\n"))

    def test_a_refusal_makes_no_page(self):
        for text, code in (("project: signal line 4\n", 6), ("tables: not json\n", 5), ("usage: word 4\n", 2), ("", 9)):
            self.assertEqual(self.call({"resolve": (text, code)}), (code, "", text))

    def test_a_text_that_is_none_makes_no_page(self):
        status, page, said = self.call({"resolve": ("something else\n", 0)})
        self.assertEqual((status, page), (70, ""))
        self.assertIn("not as expected", said)

    def test_texts_of_inputs_stay_text(self):
        evil = "</title></script><script>alert(1)</script>'\"><img src=x onerror=alert(1)>"
        page = self.call({"resolve": (cases.REPORT, 0), "tree": (cases.TREE, 0)},
                         project=cases.PROJECT.replace("Audio \\=clock", evil).replace("TINY", evil))[1]
        self.shows("&lt;img src=x onerror=alert(1)&gt;", page)
        self.shows("<img", page, 0)
        self.assertEqual(page.count("<script>"), 1)

    def test_without_pin_numbers_the_ports_are_a_grid(self):
        page = self.call({"resolve": (cases.REPORT, 0), "tree": (cases.TREE, 0)}, table={"package_pins": []})[1]
        self.shows("The ports of the part as a grid", page)
        self.assertEqual(len(re.findall(r'<g class="pin ', page)), 2 * len(cases.PINS))


if __name__ == "__main__":
    unittest.main()
