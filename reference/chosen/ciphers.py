"""Vectors of the block ciphers."""

from collections.abc import Iterator

from rognivar.ciphers import FUNCTIONS

from .group import Chosen, Group, counting

NAME = "cipher"
FLAGS = {
    "Published": "the vector stands in the publication that the comment names",
    "Pattern": "key or block of one repeated, one single or all counting values",
}
SP_800_38A = (
    "6bc1bee22e409f96e93d7e117393172a",
    "ae2d8a571e03ac9c9eb76fac45af8e51",
    "30c81c46a35ce411e5fbc1191a0a52ef",
    "f69f2445df4f9b17ad2b417be66c3710",
)
PUBLISHED = {
    "AES-128": [
        ("FIPS 197, appendix B", "2b7e151628aed2a6abf7158809cf4f3c", "3243f6a8885a308d313198a2e0370734"),
        ("FIPS 197, appendix C.1", "000102030405060708090a0b0c0d0e0f", "00112233445566778899aabbccddeeff"),
        *(("SP 800-38A, F.1.1", "2b7e151628aed2a6abf7158809cf4f3c", block) for block in SP_800_38A),
    ],
    "PRESENT-80": [("PRESENT, CHES 2007, appendix I", key * 10, block * 8) for key in ("00", "ff") for block in ("00", "ff")],
    "LED-80": [],
    "TWINE-80": [("TWINE, SAC 2012, and the CLOC and SILC v3 submission", "00112233445566778899", "0123456789abcdef")],
}


def groups() -> Iterator[Group]:
    for cipher, (width, key_length, _) in FUNCTIONS.items():
        group = Group("BlockCipherTest", {"cipher": cipher, "keySize": 8 * key_length, "blockSize": 8 * width})
        for source, key, block in PUBLISHED[cipher]:
            group.tests.append(_test(source, "Published", cipher, bytes.fromhex(key), bytes.fromhex(block)))
        for comment, key, block in _patterns(key_length, width):
            group.tests.append(_test(comment, "Pattern", cipher, key, block))
        yield group


def _test(comment: str, flag: str, cipher: str, key: bytes, block: bytes) -> Chosen:
    return Chosen(comment, (flag,), "cipher", [("name", cipher), ("key", key), ("pt", block)])


def _patterns(key_length: int, width: int) -> Iterator[tuple[str, bytes, bytes]]:
    yield "key and block of counting bytes", counting(key_length), counting(width)
    yield "key 00112233..., block 01234567...", bytes(0x11 * i for i in range(key_length)), _nibbles(width)
    for key_name, key in (("zeros", bytes(key_length)), ("ones", b"\xff" * key_length)):
        for block_name, block in (("zeros", bytes(width)), ("ones", b"\xff" * width)):
            yield f"key of {key_name}, block of {block_name}", key, block
    for name, size, pair in (("key", key_length, lambda x: (x, bytes(width))), ("block", width, lambda x: (bytes(key_length), x))):
        for place in (0, size // 2, size - 1):
            yield f"{name} with its first bit of byte {place} alone set", *pair(bytes(place) + b"\x80" + bytes(size - place - 1))
            yield f"{name} with its last bit of byte {place} alone set", *pair(bytes(place) + b"\x01" + bytes(size - place - 1))


def _nibbles(width: int) -> bytes:
    return (bytes.fromhex("0123456789abcdef") * 2)[:width]
