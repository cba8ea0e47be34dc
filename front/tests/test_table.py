"""Where a path stands in a table's file, and which signals have fewer pins than they are."""
import unittest

import cases

import json
import matching
import project as projects
import table as tables
import table_faults

SAMPLE = cases.HOME / "examples" / "sample.json"


class Paths(unittest.TestCase):
    def test_every_value_of_the_sample(self):
        """The span of each path holds the value that is there."""
        text = SAMPLE.read_text()
        found = tables.spans(text)

        def walk(value, path):
            self.assertEqual(value, json.loads(text[slice(*found[path])]))
            for name, member in value.items() if isinstance(value, dict) else enumerate(value) if isinstance(value, list) else ():
                walk(member, f"{path}/{name}")

        walk(json.loads(text), "")

    def test_what_is_missing_is_sought_around_it(self):
        at, (start, _) = tables.nearest_span('{"a": {"b": [1, 2]}}', "/a/b/7/c")
        self.assertEqual(("/a/b", 12), (at, start))

    def test_kinds_of_files(self):
        for content, kind in ((b"\xef\xbb\xbf{}", "bom"), (b"\xff\xfe{\0", "wide"), (b" \n", "empty"), (b' {"a":1}', "table"),
                              (b"proof 1\nbound none\n", "proof"), (b"#MicroXplorer\nA=1\n", "project"), (b"Mcu.Name=x\n", "project"),
                              (b"hello\n", "other")):
            self.assertEqual(kind, table_faults.kind_of(content))


class Crowds(unittest.TestCase):
    def crowd(self, *wanted):
        return matching.crowd([matching.Wanted(str(number), pins, 0, "") for number, pins in enumerate(wanted)])

    def test_all_can_be_placed(self):
        self.assertEqual([], self.crowd(("a", "b"), ("a",), ("c", "a")))
        # the third signal moves the second, which moves the first
        self.assertEqual([], self.crowd(("a", "b"), ("a", "c"), ("a",)))

    def test_too_few_pins(self):
        self.assertEqual([0, 1, 2], self.crowd(("a", "b"), ("a",), ("b",), ("c",)))
        self.assertEqual([1, 2], self.crowd(("c", "d"), ("a",), ("a",)))

    def test_long_chains(self):
        count = 3000
        self.assertEqual([], self.crowd(*((str(k), str(k + 1)) for k in range(count)), ("0",)))


class Lines(unittest.TestCase):
    def test_key_and_value(self):
        line = projects.line_of(7, rb"A\=B.C=d\:e=f")
        self.assertEqual(("A=B.C", "d:e=f", 7), (line.key, line.value, line.start))
        self.assertIsNone(projects.line_of(1, rb"A\=B"))
        self.assertIsNone(projects.line_of(1, b"# a=b"))

    def test_pins_by_number(self):
        project = projects.Project("p", b"Mcu.Pin10=PB1\r\nMcu.Pin2=PA1\nMcu.Pin1=VP_X\nMcu.Pin02=PC1\n")
        self.assertEqual(["PA1", "PB1"], [line.value for line in project.pins()])


if __name__ == "__main__":
    unittest.main()
