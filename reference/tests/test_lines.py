"""Lines: what answer writes, lines that can't be read, and that generated cases are the same for the same seed."""

import unittest

from rognivar.generate import KINDS, inputs
from rognivar.lines import answer


class Lines(unittest.TestCase):
    def test_results_on_the_line_are_not_taken(self) -> None:
        line = b"kind=cipher case=0 name=TWINE-80 key=00112233445566778899 pt=0123456789abcdef"
        self.assertEqual(answer(line + b" ct=00"), line + b" ct=7c1f0f80b1df9c28")

    def test_unreadable(self) -> None:
        for line, field in (
            (b"", b"kind"),
            (b"\xff\xfe", b"kind"),
            (b"kind=block", b"kind"),
            (b"kind=cipher name=DES", b"name"),
            (b"kind=cipher name=LED-80 key=00", b"key"),
            (b"kind=setrule code=100 width=8 n=6 t=4 param=0", b"code"),
            (b"kind=tube wire=000", b"wire"),
        ):
            self.assertEqual(answer(line), line + b" bad=" + field)

    def test_a_sign_needs_an_open(self) -> None:
        line = b"kind=session mode=CLOC cipher=TWINE-80 key=00112233445566778899 q=40 code=1 width=8 n=6 t=4 param=c4 window=40 floor=0 steps=1 op.0=sign"
        self.assertEqual(answer(line), line + b" bad=op.0")


class Generated(unittest.TestCase):
    def test_same_for_the_same_seed(self) -> None:
        for kind in (*KINDS, "unreadable"):
            self.assertEqual(list(inputs(kind, 3, 5)), list(inputs(kind, 3, 9))[:5])
            self.assertNotEqual(list(inputs(kind, 3, 5)), list(inputs(kind, 4, 5)))

    def test_readable_and_stable(self) -> None:
        for kind in KINDS:
            for line in inputs(kind, 1, 60):
                full = answer(line.encode())
                self.assertNotIn(b" bad=", full)
                self.assertEqual(answer(full), full)

    def test_every_refusal_is_met(self) -> None:
        met = set()
        for kind, count in (("setrule", 20), ("tube", 20), ("modecall", 300), ("send", 200), ("session", 120)):
            for line in inputs(kind, 1, count):
                fields = answer(line.encode()).decode().split(" ")
                met |= {field.partition("=")[2] for field in fields if field.startswith("res")}
        self.assertEqual(met, {"ok"} | {str(number) for number in range(4, 19)})


if __name__ == "__main__":
    unittest.main()
