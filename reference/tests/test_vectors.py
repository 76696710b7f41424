"""The files of vectors/ hold what the reference computes, and every test stands among the lines that are kept for the program `cases`."""

import json
import unittest
from collections.abc import Iterator
from pathlib import Path

from rognivar.jsonform import Json, expected, inputs_of, kind_of
from rognivar.lines import answer

ROOT = Path(__file__).resolve().parent.parent.parent
FILES = ("call", "cipher", "mode", "send", "session", "set", "tube")


def read(name: str) -> Json:
    return json.loads((ROOT / "vectors" / f"{name}.json").read_text())


def tests() -> Iterator[tuple[str, Json, Json]]:
    for name in FILES:
        for group in read(name)["testGroups"]:
            for test in group["tests"]:
                yield f"{name}-{test['tcId']}", group, test


class Vectors(unittest.TestCase):
    def test_no_other_file(self) -> None:
        self.assertEqual(sorted(path.stem for path in (ROOT / "vectors").glob("*.json")), list(FILES))

    def test_form(self) -> None:
        for name in FILES:
            made = read(name)
            found = [test for group in made["testGroups"] for test in group["tests"]]
            self.assertEqual([test["tcId"] for test in found], list(range(1, made["numberOfTests"] + 1)))
            self.assertEqual({flag for test in found for flag in test["flags"]}, set(made["notes"]))
            for test in found:
                self.assertTrue(test["comment"] and test["flags"])
                self.assertIn(test["result"], ("valid", "invalid"))

    def test_what_the_reference_computes(self) -> None:
        for label, group, test in tests():
            given = inputs_of(label, group, test)
            computed = expected(kind_of(group, test), answer(given.encode()).decode())
            self.assertEqual({name: value for name, value in test.items() if name not in ("tcId", "comment", "flags")}, computed, label)

    def test_every_vector_has_its_line(self) -> None:
        given, written = ((ROOT / "vectors" / name).read_bytes().split(b"\n")[:-1] for name in ("cases.in", "cases.out"))
        self.assertEqual(len(given), len(written))
        run = dict(zip(given, written))
        for label, group, test in tests():
            line = inputs_of(label, group, test).encode()
            self.assertIn(line, run, label)
            self.assertEqual(run[line], answer(line), label)

    def test_the_gate_expects_what_the_reference_computes(self) -> None:
        given, written = ((ROOT / "crates/cases" / name).read_bytes().split(b"\n")[:-1] for name in ("stdin", "stdout"))
        self.assertEqual([answer(line) for line in given], written)
        self.assertTrue(any(b" bad=" in line for line in written))


if __name__ == "__main__":
    unittest.main()
