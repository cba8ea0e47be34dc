"""Each case of blocks.txt: the block that the front adds where the program answers as the case says."""
import contextlib
import io
import os
import pathlib
import tempfile
import unittest

import cases

import blocks
import hints
import words_fault

STUB = str(cases.HERE / "stub")


def added(case):
    """What the front says behind the program's answer. Files are named as seen from the folder of the moment."""
    if not case.words:
        return words_fault.no_words()
    out = io.StringIO()
    block = hints.block_for(case.status, case.words, case.answer)
    if block:
        blocks.tell(block, out)
    return out.getvalue().replace(str(cases.HOME), "HOME")


@contextlib.contextmanager
def a_folder():
    """A folder of examples and tables, which is the one of the moment."""
    before = os.getcwd()
    with tempfile.TemporaryDirectory() as folder:
        os.chdir(folder)
        try:
            cases.furnish(pathlib.Path(folder))
            yield pathlib.Path(folder)
        finally:
            os.chdir(before)


class Blocks(unittest.TestCase):
    def test_each_case(self):
        with a_folder() as folder:
            for case in cases.each_case(folder):
                with self.subTest(" ".join(case.words)[:100]):
                    self.assertEqual(case.block, added(case))

    def test_no_text_of_an_input_reaches_a_terminal(self):
        with a_folder() as folder:
            for case in cases.each_case(folder):
                self.assertTrue(all(letter.isprintable() or letter == "\n" for letter in added(case)))

    def test_colour_is_about_the_text_alone(self):
        block = blocks.Block("a", blocks.Place("f", 3, b"key=value", 4, 9), ("n",), ("h",))
        plain = list(blocks.lines_of(block, blocks.painter(False)))
        coloured = "\n".join(blocks.lines_of(block, blocks.painter(True)))
        for code in ["\x1b[0m", *(f"\x1b[{code}m" for code in blocks.COLOURS.values())]:
            coloured = coloured.replace(code, "")
        self.assertEqual(plain, coloured.split("\n"))

    def test_long_lines_are_cut_around_what_is_marked(self):
        text, marks = blocks.marked(blocks.Place("f", 1, b"a" * 500 + b"XY" + b"b" * 500, 500, 502))
        self.assertLess(len(text), 110)
        self.assertEqual("XY", text[marks.index("^") : marks.index("^") + marks.count("^")])


class Asked(unittest.TestCase):
    """The program is asked once more what it says, where that is sure to be the same."""

    def said(self, status, words, text, stub_status):
        os.environ.update(TOARNYK_PROGRAM=STUB, STUB_TEXT=text, STUB_STATUS=str(stub_status))
        return hints.said_again(status, words)

    def test_the_same_status(self):
        self.assertEqual("tables: not json\n", self.said(5, ["pins", __file__, __file__], "tables: not json\n", 5))

    def test_another_status(self):
        self.assertIsNone(self.said(5, ["pins", __file__, __file__], "tables: not json\n", 0))

    def test_a_pipe_is_not_read_again(self):
        with tempfile.TemporaryDirectory() as folder:
            pipe = os.path.join(folder, "pipe")
            os.mkfifo(pipe)
            self.assertIsNone(self.said(5, ["pins", pipe, __file__], "tables: not json\n", 5))

    def test_a_status_alone(self):
        wanted = {5: "a fault of the table (status 5)", 8: "the output could not be written whole (status 8)",
                  9: "out of memory (status 9)", 20: "the system did not hand over the words (status 20)"}
        for status, title in wanted.items():
            self.assertEqual(title, hints.block_for(status, ["pins", "a", "b"], None).title)
        self.assertIsNone(hints.block_for(99, ["pins", "a", "b"], None))


class Others(unittest.TestCase):
    """Another command is named where it answers what this one refuses, and only where the list has it."""

    def helps(self, status, words, said):
        block = hints.block_for(status, words, said)
        return " ".join(block.helps)

    def test_board_and_explain(self):
        import commands

        wide = (7, ["resolve", "sample.json", "empty.ioc"], "too wide: variable 31\n")
        nothing = (1, ["pins", "sample.json", "two-interrupts.ioc"], "no choice\n")
        with a_folder():
            self.assertIn("`toarnyk board`", self.helps(*wide))
            self.assertIn("`toarnyk explain`", self.helps(*nothing))
            kept = dict(commands.COMMANDS)
            try:
                for name in ("board", "explain"):
                    del commands.COMMANDS[name]
                self.assertNotIn("board`", self.helps(*wide))
                self.assertNotIn("explain", self.helps(*nothing))
            finally:
                commands.COMMANDS.clear()
                commands.COMMANDS.update(kept)


if __name__ == "__main__":
    unittest.main()
