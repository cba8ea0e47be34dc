"""`toarnyk code`: the C text on success, and nothing on a refusal."""
import os
import pathlib
import subprocess
import sys
import tempfile
import unittest

import cases

import code_text

FRONT = str(cases.HOME / "front" / "toarnyk.py")
C_TEXT = "#include <stdint.h>\nint board_init(void)\n{\n    return DONE;\n}\n"


def run(words, text, status, folder):
    answer = {"TOARNYK_PROGRAM": str(cases.HERE / "stub"), "STUB_TEXT": text, "STUB_STATUS": str(status)}
    return subprocess.run([sys.executable, "-I", "-S", FRONT, "code", *words], cwd=folder, capture_output=True, text=True,
                          env=dict(os.environ, **answer))


class Code(unittest.TestCase):
    def setUp(self):
        holder = tempfile.TemporaryDirectory()
        self.addCleanup(holder.cleanup)
        self.folder = pathlib.Path(holder.name)

    def test_the_c_text_alone(self):
        done = run(["t", "p"], "rank 0 cost 0 of 1\npins 0\n" + C_TEXT, 0, self.folder)
        self.assertEqual((0, C_TEXT, ""), (done.returncode, done.stdout, done.stderr))

    def test_a_proof_behind_it_is_left_out(self):
        self.assertEqual(C_TEXT.encode(), code_text.c_text(f"pins 0\n{C_TEXT}proof 1\nbound 1\nend\n".encode()))

    def test_nothing_on_a_refusal(self):
        done = run(["t", "p"], "tables: not json\n", 5, self.folder)
        self.assertEqual((5, ""), (done.returncode, done.stdout))
        self.assertEqual("tables: not json", done.stderr.splitlines()[0])

    def test_a_file_and_its_header(self):
        done = run(["t", "p", "-o", "board_init.c"], "pins 0\n" + C_TEXT, 0, self.folder)
        self.assertEqual((0, "", ""), (done.returncode, done.stdout, done.stderr))
        self.assertEqual(C_TEXT, (self.folder / "board_init.c").read_text())
        self.assertIn("\nint board_init(void);\n", (self.folder / "board_init.h").read_text())
        self.assertEqual(["board_init.c", "board_init.h"], sorted(os.listdir(self.folder)))

    def test_the_header_has_the_timeouts_of_over_drive_where_the_text_has_them(self):
        plain = code_text.header("b.c", C_TEXT.encode())
        self.assertIn("    BOARD_INIT_SWITCH_TIMEOUT = 4\n};", plain)
        over = code_text.header("b.c", C_TEXT.replace("{", "enum { OVER_TIMEOUT };\n{").encode())
        self.assertIn("    BOARD_INIT_SWITCH_TIMEOUT = 4,\n    BOARD_INIT_OVER_TIMEOUT = 5,\n    BOARD_INIT_OVER_SWITCH_TIMEOUT = 6\n};", over)

    def test_no_file_on_a_refusal(self):
        done = run(["t", "p", "-o", "board_init.c"], "proof 1\nbound none\nL 13\nend\n", 1, self.folder)
        self.assertEqual((1, "", []), (done.returncode, done.stdout, os.listdir(self.folder)))

    def test_words_of_its_own(self):
        for words in (["t", "p", "-o"], ["t", "p", "-o", "a.txt"], ["t", "p", "-o", ".c"], ["t", "p", "-o", "a.c", "-o", "b.c"]):
            done = run(words, "pins 0\n" + C_TEXT, 0, self.folder)
            self.assertEqual((2, "", []), (done.returncode, done.stdout, os.listdir(self.folder)), words)

    def test_a_folder_that_is_not_there(self):
        done = run(["t", "p", "-o", "no/a.c"], "pins 0\n" + C_TEXT, 0, self.folder)
        self.assertEqual((8, ""), (done.returncode, done.stdout))

    def test_a_value_that_looks_like_the_option(self):
        self.assertEqual((["t", "p", "--need", "-o"], None, None), code_text.without_file(["t", "p", "--need", "-o"]))


if __name__ == "__main__":
    unittest.main()
