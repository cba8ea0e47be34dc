"""The dispatcher, the help and the version."""
import contextlib
import io
import os
import tempfile
import unittest

import cases

import commands
import toarnyk
import version


def said(*words):
    """Status, standard output and standard error of a call."""
    out, err = io.StringIO(), io.StringIO()
    with contextlib.redirect_stdout(out), contextlib.redirect_stderr(err):
        status = toarnyk.main(list(words))
    return status, out.getvalue(), err.getvalue()


class Help(unittest.TestCase):
    def test_all_of_it(self):
        status, out, err = said("help")
        self.assertEqual((0, ""), (status, err))
        for name in commands.COMMANDS:
            self.assertIn(f"\n  {name} ", out)
        for entry in commands.STATUSES:
            self.assertIn(f"\n  {entry.number} ", out)
        self.assertEqual(out, said("--help")[1])

    def test_each_command(self):
        for name, command in commands.COMMANDS.items():
            status, out, err = said("help", name)
            self.assertEqual((0, ""), (status, err))
            self.assertTrue(out.startswith(f"usage: toarnyk {name}"))
            for option in command.options:
                self.assertIn(f"\n  {option}", out)
            self.assertEqual(out, said(name, "--help")[1])

    def test_a_command_that_is_none(self):
        status, out, err = said("help", "lnt")
        self.assertEqual((2, ""), (status, out))
        self.assertIn("the nearest: lint", err)

    def test_kinds_of_notes(self):
        import lint_kinds

        for kind in lint_kinds.KINDS:
            self.assertIn(f"\n  {kind.name} ", said("lint", "--help")[1])


class Missing(unittest.TestCase):
    def test_a_command_whose_module_is_not_there(self):
        kept = toarnyk.MODULES["view"]
        toarnyk.MODULES["view"] = "no_such_module"
        try:
            self.assertEqual((70, "", "toarnyk: `view` is not there: front/no_such_module.py is missing\n"), said("view", "t", "p"))
        finally:
            toarnyk.MODULES["view"] = kept


class Version(unittest.TestCase):
    def lines(self, proved):
        with tempfile.TemporaryDirectory() as folder:
            program = os.path.join(folder, "resolver_cli")
            with open(program, "w") as stream:
                stream.write("abc")
            with open(os.path.join(folder, "proved"), "w") as stream:
                stream.write(proved)
            return version.proved(program)

    # the sum of `abc` is that of FIPS 180
    ABC = "ba7816bf8f01cfea414140de5dae2223b00361a396177a9cb410ff61f20015ad"

    def test_what_was_proved(self):
        lines = self.lines(f"kit a b\ndate 2026-01-02\nsources s\nprogram {self.ABC}\n")
        self.assertEqual(["kit: a b", "proved and built: 2026-01-02", "sources: s", f"program: {self.ABC}"], lines)

    def test_another_program(self):
        self.assertTrue(self.lines("kit a\nprogram 0\n")[-1].startswith("warning: this is not the program that was proved"))

    def test_tables(self):
        self.assertEqual(sorted(path.name for path in (cases.HOME / "tables").glob("*.json")), [os.path.basename(file) for file in version.tables()])


if __name__ == "__main__":
    unittest.main()
