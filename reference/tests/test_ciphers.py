"""The published vectors of the four ciphers, and the rules of a run and a meter."""

import unittest

from rognivar.ciphers import NO_END, Cipher, Meter, led, led_keys
from rognivar.refusals import Refusal

ONES = 2**64 - 1


def run(name: str, key: str, block: str) -> str:
    cipher = Cipher(name)
    cipher.set_key(bytes.fromhex(key))
    return cipher.run(bytes.fromhex(block)).hex()


class Published(unittest.TestCase):
    def test_aes_fips_197(self) -> None:
        given = run("AES-128", "2b7e151628aed2a6abf7158809cf4f3c", "3243f6a8885a308d313198a2e0370734")
        self.assertEqual(given, "3925841d02dc09fbdc118597196a0b32")
        given = run("AES-128", "000102030405060708090a0b0c0d0e0f", "00112233445566778899aabbccddeeff")
        self.assertEqual(given, "69c4e0d86a7b0430d8cdb78070b4c55a")

    def test_aes_sp_800_38a(self) -> None:
        pairs = (
            ("6bc1bee22e409f96e93d7e117393172a", "3ad77bb40d7a3660a89ecaf32466ef97"),
            ("ae2d8a571e03ac9c9eb76fac45af8e51", "f5d3d58503b9699de785895a96fdbaaf"),
            ("30c81c46a35ce411e5fbc1191a0a52ef", "43b1cd7f598ece23881b00e3ed030688"),
            ("f69f2445df4f9b17ad2b417be66c3710", "7b0c785e27e8ad3f8223207104725dd4"),
        )
        for block, result in pairs:
            self.assertEqual(run("AES-128", "2b7e151628aed2a6abf7158809cf4f3c", block), result)

    def test_present(self) -> None:
        zeros, ones = "00" * 10, "ff" * 10
        self.assertEqual(run("PRESENT-80", zeros, "00" * 8), "5579c1387b228445")
        self.assertEqual(run("PRESENT-80", ones, "00" * 8), "e72c46c0f5945049")
        self.assertEqual(run("PRESENT-80", zeros, "ff" * 8), "a112ffc72f68417b")
        self.assertEqual(run("PRESENT-80", ones, "ff" * 8), "3333dcd3213210d2")

    def test_led_64_and_led_128(self) -> None:
        count = 0x0123456789ABCDEF
        self.assertEqual(led(led_keys((0,), 64, 8), 0), 0x39C2401003A0C798)
        self.assertEqual(led(led_keys((count,), 64, 8), count), 0xA003551E3893FC58)
        self.assertEqual(led(led_keys((0, 0), 128, 12), 0), 0x3DECB2A0850CDBA1)
        self.assertEqual(led(led_keys((count, count), 128, 12), count), 0xD6B824587F014FC2)

    def test_led_80(self) -> None:
        self.assertEqual(run("LED-80", "00112233445566778899", "0123456789abcdef"), "0b31c20cb38f9d8c")

    def test_twine(self) -> None:
        self.assertEqual(run("TWINE-80", "00112233445566778899", "0123456789abcdef"), "7c1f0f80b1df9c28")


class Runs(unittest.TestCase):
    def refused(self, number: int, values: tuple[int, ...], call, *given) -> None:
        with self.assertRaises(Refusal) as caught:
            call(*given)
        self.assertEqual((caught.exception.number, caught.exception.values, caught.exception.layers), (number, values, ("cipher",)))

    def test_key_of_another_length(self) -> None:
        cipher = Cipher("LED-80")
        cipher.set_key(b"0123456789")
        self.refused(1, (16,), cipher.set_key, bytes(16))
        self.assertEqual(cipher.key, b"0123456789")

    def test_block_before_left(self) -> None:
        meter = Meter(Cipher("AES-128"), 0)
        self.refused(2, (8,), meter.run, bytes(8))
        self.refused(3, (), meter.run, bytes(16))

    def test_the_smaller_of_two(self) -> None:
        pile = Meter(Meter(Cipher("PRESENT-80"), 2), 5)
        self.assertEqual(pile.left, 2)
        pile.run(bytes(8))
        pile.run(bytes(8))
        self.assertEqual((pile.left, pile.quota), (0, 3))
        self.refused(3, (), pile.run, bytes(8))
        self.assertEqual(pile.quota, 3)

    def test_no_end(self) -> None:
        meter = Meter(Cipher("TWINE-80"), NO_END)
        meter.run(bytes(8))
        self.assertEqual(meter.left, NO_END)


if __name__ == "__main__":
    unittest.main()
