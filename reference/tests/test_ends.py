"""Sets, tubes, the ledger and both ends: the values worked by hand in docs/, and the order of the ends' checks."""

import unittest

from rognivar import tube
from rognivar.ciphers import NO_END, Cipher, Meter
from rognivar.ends import Receiving, Sending, last_number
from rognivar.ledger import Ledger
from rognivar.modes import Silc
from rognivar.refusals import Refusal
from rognivar.sets import ParameterSet, lookup

SET = ParameterSet(2, 8, 6, 4, 0xC4)


def silc(quota: int = NO_END) -> Silc:
    return Silc(Meter(Cipher("PRESENT-80"), quota))


class Refusals(unittest.TestCase):
    def refused(self, number: int, values: tuple[int, ...], layers: tuple[str, ...], call, *given) -> None:
        with self.assertRaises(Refusal) as caught:
            call(*given)
        fault = caught.exception
        self.assertEqual((fault.number, fault.values, fault.layers), (number, values, layers))


class Sets(Refusals):
    def test_lookup(self) -> None:
        self.assertEqual(lookup(2, "LED-80", 4, 8), ParameterSet(2, 8, 4, 8, 0xDA))
        self.assertEqual(lookup(1, "AES-128", 14, 4), ParameterSet(1, 16, 14, 4, 0xE3))
        self.assertEqual(lookup(1, "TWINE-80", 6, 4), ParameterSet(1, 8, 6, 4, 0xC4))
        self.assertIsNone(lookup(2, "PRESENT-80", 6, 5))
        self.assertIsNone(lookup(1, "LED-80", 6, 4))
        rows = [lookup(code, cipher, n, t) for code in (1, 2) for cipher in ("AES-128", "TWINE-80", "PRESENT-80", "LED-80") for n in range(18) for t in range(18)]
        self.assertEqual(sum(row is not None for row in rows), 24 + 6 + 12)

    def test_first_wrong_field(self) -> None:
        for fields, field in (((0, 9, 0, 0, 0), 1), ((1, 9, 0, 0, 0), 2), ((1, 8, 7, 0, 0), 3), ((1, 8, 0, 0, 0), 3), ((2, 16, 14, 17, 0), 4)):
            self.refused(4, (field,), ("mode",), ParameterSet, *fields)


class Tubes(Refusals):
    wire = tube.write(2, 0xC4, bytes.fromhex("000000000005"), b"A1", bytes.fromhex("112233"), bytes.fromhex("aabbccdd"))

    def test_by_hand(self) -> None:
        self.assertEqual(len(self.wire), 37)
        self.assertEqual(tube.length(6, 4, 2, 3), 37)
        self.assertEqual(self.wire.hex(), "0000000202c40000000600000000000500000002413100000003112233" + "00000004aabbccdd")
        read = tube.read(self.wire)
        self.assertEqual(read.places, (4, 10, 20, 26, 33))
        self.assertEqual((read.code, read.param, read.number, read.label), (2, 0xC4, 5, b"A1"))

    def test_one_less_and_one_more(self) -> None:
        self.refused(14, (5, 33), ("tube",), tube.read, self.wire[:-1])
        self.refused(14, (6, 37), ("tube",), tube.read, self.wire + b"\0")

    def test_every_shorter_one(self) -> None:
        for length in range(37):
            borders = ((4, 1, 0), (6, 1, 4), (10, 2, 6), (16, 2, 10), (20, 3, 16), (22, 3, 20), (26, 4, 22), (29, 4, 26), (33, 5, 29), (37, 5, 33))
            section, place = next((section, place) for end, section, place in borders if length < end)
            self.refused(14, (section, place), ("tube",), tube.read, self.wire[:length])


class Ledgers(unittest.TestCase):
    def test_window(self) -> None:
        ledger = Ledger(0)
        ledger.sign(70)
        self.assertTrue(ledger.is_old(6))
        self.assertFalse(ledger.is_old(7))
        self.assertTrue(ledger.is_signed(70))
        self.assertFalse(ledger.is_signed(69))
        self.assertEqual((ledger.high, ledger.marks), (70, 1))

    def test_nothing_is_old_below_64(self) -> None:
        ledger = Ledger(0)
        ledger.sign(63)
        self.assertFalse(any(ledger.is_old(number) for number in range(1, 64)))
        self.assertEqual(ledger.marks, 1 << 63 | 1)

    def test_floor(self) -> None:
        ledger = Ledger(100)
        self.assertEqual((ledger.high, ledger.marks), (100, 2**64 - 1))
        ledger.sign(102)
        self.assertEqual((ledger.high, ledger.marks), (102, 2**64 - 3))


class Sends(Refusals):
    def test_numbers_end_at_l(self) -> None:
        self.assertEqual([last_number(n) for n in (1, 4, 6, 12)], [255, 2**32 - 1, 2**48 - 1, 2**48 - 1])
        small = ParameterSet(2, 8, 1, 4, 0)
        end = Sending(small, 255)
        end.send(silc(), b"", b"", 27, 64)
        self.refused(13, (255,), ("end",), end.send, silc(), b"", b"", 27, 64)
        self.refused(9, (4097, 0), ("mode", "end"), end.send, silc(), bytes(4097), b"", 27, 64)
        for start in (0, 256):
            self.refused(5, (start,), ("end",), Sending, small, start)

    def test_a_refused_send_takes_no_number(self) -> None:
        end = Sending(SET, 1)
        self.refused(10, (37,), ("mode", "end"), end.send, silc(), b"A1", b"123", 36, 64)
        self.refused(11, (6, 5), ("mode", "end"), end.send, silc(5), b"A1", b"123", 37, 64)
        self.assertEqual(end.next, 1)


class Receives(Refusals):
    def sent(self, start: int, label: bytes = b"A1", contents: bytes = b"123") -> bytes:
        return Sending(SET, start).send(silc(), label, contents, 5000, 64).wire

    def test_open_and_sign(self) -> None:
        end, mode = Receiving(SET, 0), silc(100)
        opened = end.open(mode, self.sent(7), 3, 64)
        self.assertEqual((opened.number, opened.label_place, opened.label_length, opened.contents, opened.count), (7, 20, 2, b"123", 6))
        end.give_back()
        end.open(mode, self.sent(7), 3, 64)
        end.sign()
        self.refused(18, (7,), ("end",), end.open, mode, self.sent(7), 3, 64)
        self.assertEqual(mode.left, 88)

    def test_order(self) -> None:
        """An open with every cause at once; one after another is taken away."""
        end, mode, wire = Receiving(SET, 200), silc(5), self.sent(201)
        tail = wire[16:]

        def head(section1: bytes, nonce: bytes) -> bytes:
            return tube.section(section1) + tube.section(nonce) + tail

        other = ParameterSet(1, 8, 6, 4, 0xC4)
        wrong = Receiving(other, 200)
        short = head(b"\2\xc4", bytes(5))
        self.refused(6, (63,), ("mode", "end"), wrong.open, mode, b"", 0, 63)
        self.refused(7, (2, 8), ("mode", "end"), wrong.open, mode, b"", 0, 64)
        self.refused(14, (1, 0), ("tube", "end"), end.open, mode, b"", 0, 64)
        self.refused(15, (1,), ("end",), end.open, mode, head(b"\2\xc5", bytes(5)), 0, 64)
        self.refused(15, (2,), ("end",), end.open, mode, short, 0, 64)
        self.refused(15, (5,), ("end",), end.open, mode, head(b"\2\xc4", bytes(6))[:-8] + tube.section(bytes(3)), 0, 64)
        self.refused(16, (), ("end",), end.open, mode, head(b"\2\xc4", bytes(6)), 0, 64)
        self.refused(17, (136, 200), ("end",), end.open, mode, head(b"\2\xc4", (136).to_bytes(6, "big")), 0, 64)
        self.refused(18, (137,), ("end",), end.open, mode, head(b"\2\xc4", (137).to_bytes(6, "big")), 0, 64)
        self.refused(10, (3,), ("mode", "end"), end.open, mode, wire, 2, 64)
        self.refused(11, (6, 5), ("mode", "end"), end.open, mode, wire, 3, 64)
        mode = silc(6)
        self.refused(12, (5,), ("mode", "end"), end.open, mode, wire[:-1] + bytes((wire[-1] ^ 1,)), 3, 64)
        self.assertEqual((mode.left, end.ledger.high, end.held), (1, 200, None))

    def test_number_above_l(self) -> None:
        wide = ParameterSet(2, 16, 8, 4, 0)
        end = Receiving(wide, 2**48 - 1)
        mode = Silc(Cipher("AES-128"))
        wire = tube.write(2, 0, (2**48).to_bytes(8, "big"), b"", b"", bytes(4))
        self.refused(16, (), ("end",), end.open, mode, wire, 0, 64)
        self.refused(5, (2**48,), ("end",), Receiving, wide, 2**48)


if __name__ == "__main__":
    unittest.main()
