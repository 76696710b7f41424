"""The published vector of CLOC, the tweaks by hand, the counts of runs and the order of a mode's checks."""

import unittest

from rognivar.ciphers import NO_END, Cipher, Meter
from rognivar.modes import Cloc, Mode, Silc, f1, f2, g, g1, g2, h
from rognivar.refusals import Refusal
from rognivar.sets import ParameterSet, lookup


def mode(kind: type[Mode], cipher: str, quota: int = NO_END) -> Mode:
    return kind(Meter(Cipher(cipher), quota))


class Tweaks(unittest.TestCase):
    def test_words_by_hand(self) -> None:
        block = 0x0001_0002_0004_0008
        self.assertEqual(f1(block, 8), 0x0005_000A_0007_000E)
        self.assertEqual(f2(block, 8), 0x0002_0004_0008_0003)
        self.assertEqual(g1(block, 8), 0x0004_0008_0003_0006)
        self.assertEqual(h(block, 8), 0x0003_0006_000C_000B)
        self.assertIs(g2, f2)

    def test_powers_of_f2(self) -> None:
        for b in (8, 16):
            for bit in range(8 * b):
                powers = [1 << bit]
                for _ in range(8):
                    powers.append(f2(powers[-1], b))
                self.assertEqual([g1(1 << bit, b), h(1 << bit, b), f1(1 << bit, b)], [powers[2], powers[4], powers[8]])

    def test_silc(self) -> None:
        self.assertEqual(g(0x0102_0304_0506_0708, 8), 0x0203_0405_0607_0803)


class Published(unittest.TestCase):
    def test_cloc_of_fse_2014(self) -> None:
        """It has no param byte: its nonce begins with the byte 00, which is taken as param, with the other eleven as the nonce."""
        cipher = Cipher("AES-128")
        cipher.set_key(bytes.fromhex("00102030405060708090a0b0c0d0e0f0"))
        nonce = bytes.fromhex("112233445566778899aabb")
        label = bytes.fromhex("ff0102030405060708090a0b0c0d")
        contents = bytes.fromhex("86012204ccebf09ad5305ea8967aebd00dd9c05cbde9407ff1ef52f043a2")
        s = ParameterSet(1, 16, 11, 16, 0x00)
        ciphertext, tag, _ = Cloc(cipher).seal(s, nonce, label, contents, 30, 16, 64)
        self.assertEqual(ciphertext.hex(), "ebd908c23eac555dee406434fb2cffd4e1bee4401002063e2d13cdf9df3b")
        self.assertEqual(tag.hex(), "6621dae27674aa6fbc303426824b2c05")


class Counts(unittest.TestCase):
    def test_by_hand(self) -> None:
        cloc, silc = mode(Cloc, "TWINE-80"), mode(Silc, "PRESENT-80")
        self.assertEqual(cloc.count("seal", 0, 0), 2)
        self.assertEqual(cloc.count("open", 8, 9), 6)
        self.assertEqual(silc.count("seal", 0, 0), 3)
        self.assertEqual(silc.count("open", 9, 9), 9)
        self.assertEqual(silc.count("refused", 9, 9), 7)

    def test_above_the_limits(self) -> None:
        cloc = mode(Cloc, "TWINE-80")
        for a, m in ((4097, 0), (0, 1048577)):
            with self.assertRaises(Refusal) as caught:
                cloc.count("seal", a, m)
            self.assertEqual((caught.exception.number, caught.exception.values), (9, (a, m)))

    def test_left_falls_by_the_count(self) -> None:
        for kind, cipher, code in ((Cloc, "AES-128", 1), (Silc, "LED-80", 2)):
            made = mode(kind, cipher, 1000)
            s = ParameterSet(code, made.b, 4, 4, 7)
            for a in (0, 1, made.b, made.b + 1):
                for m in (0, 1, made.b, 3 * made.b):
                    before = made.left
                    _, _, count = made.seal(s, bytes(4), bytes(a), bytes(m), m, 4, 64)
                    self.assertEqual(before - made.left, count)


class Opening(unittest.TestCase):
    def test_what_was_sealed_opens(self) -> None:
        for kind, cipher in ((Cloc, "PRESENT-80"), (Silc, "AES-128")):
            made = mode(kind, cipher)
            s = ParameterSet(made.code, made.b, 3, 5, 9)
            for m in range(3 * made.b + 2):
                contents = bytes(range(m))
                ciphertext, tag, _ = made.seal(s, b"abc", b"label", contents, m, 5, 64)
                self.assertEqual(made.open(s, b"abc", b"label", ciphertext, tag, m, 64)[0], contents)

    def test_wrong_tag_costs_its_runs(self) -> None:
        made = mode(Silc, "PRESENT-80", 100)
        s = lookup(2, "PRESENT-80", 6, 4)
        ciphertext, tag, _ = made.seal(s, bytes(6), bytes(9), bytes(9), 9, 4, 64)
        with self.assertRaises(Refusal) as caught:
            made.open(s, bytes(6), bytes(9), ciphertext, bytes(4), 9, 64)
        self.assertEqual((caught.exception.number, caught.exception.values), (12, (7,)))
        self.assertEqual(made.left, 100 - 9 - 7)


class Order(unittest.TestCase):
    def test_first_cause_that_applies(self) -> None:
        """A call with every cause at once; one after another is taken away."""
        made = mode(Silc, "PRESENT-80", 8)
        good, other = ParameterSet(2, 8, 6, 4, 0xC4), ParameterSet(1, 8, 6, 4, 0xC4)
        label, nonce = bytes(4097), bytes(5)
        given = dict(s=other, nonce=nonce, label=label, contents=bytes(9), out=8, tagpart=3, work=63)
        expected = [
            (6, (63,), dict(work=64)),
            (7, (2, 8), dict(s=good)),
            (8, (5,), dict(nonce=bytes(6))),
            (9, (4097, 9), dict(label=bytes(9))),
            (10, (9,), dict(out=9)),
            (10, (4,), dict(tagpart=4)),
            (11, (9, 8), {}),
        ]
        for number, values, cure in expected:
            with self.assertRaises(Refusal) as caught:
                made.seal(**given)
            self.assertEqual((caught.exception.number, caught.exception.values), (number, values))
            self.assertEqual(made.left, 8)
            given |= cure


if __name__ == "__main__":
    unittest.main()
