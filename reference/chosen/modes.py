"""Vectors of sealing and opening: what is sealed, and what must not open."""

from __future__ import annotations

from collections.abc import Iterator

from rognivar.ciphers import FUNCTIONS, NO_END
from rognivar.choices import Fields
from rognivar.modes import MODES, WORK, Mode
from rognivar.sets import ParameterSet

from .group import RECOMMENDED, Chosen, Group, counting, flipped, key_of, made, set_fields

NAME = "mode"
FLAGS = {
    "Published": "the vector stands in the publication that the comment names",
    "BlockBoundary": "label or contents end at, just before or just after a border of blocks",
    "EmptyLabel": "there is no label; in CLOC it counts as one empty block, in SILC as none",
    "EmptyContents": "there are no contents: the ciphertext is empty, and CLOC's tag takes another way",
    "LongerThan255": "label or contents whose length takes more than one byte in SILC's Len",
    "OneBlockLabel": "the label is exactly one block, so CLOC takes f1 where a shorter one takes f2",
    "FirstBit": "the first bit of the label is set, for which CLOC applies h",
    "TagLength": "the tag is cut to a length",
    "NonceLength": "the nonce has a length that changes how it is padded",
    "Param": "sets that differ in param alone seal differently",
    "DamagedTag": "the tag was changed",
    "WrongLabel": "the label is not the one that was sealed",
    "WrongNonce": "the nonce is not the one that was sealed",
    "WrongCiphertext": "the ciphertext was changed",
    "WrongKey": "another key than the one that sealed",
    "WrongSet": "sealed under a set that differs in param, or by the other mode",
}
OTHER = (
    ("CLOC", "PRESENT-80", ParameterSet(1, 8, 5, 7, 0x11)),
    ("CLOC", "LED-80", ParameterSet(1, 8, 3, 8, 0x22)),
    ("SILC", "TWINE-80", ParameterSet(2, 8, 4, 6, 0x33)),
)


def groups() -> Iterator[Group]:
    yield _published()
    for mode, cipher, s in RECOMMENDED:
        group = _group(mode, cipher, s)
        b = s.width
        for m in (0, 1, b - 1, b, b + 1, 2 * b, 2 * b + 1):
            group.tests.append(_sealed(mode, cipher, s, 3, m))
        for a in (0, 1, b - 1, b, b + 1, 2 * b, 2 * b + 1):
            group.tests.append(_sealed(mode, cipher, s, a, b + 1))
        for a, m in ((0, 0), (b, 0), (0, b), (b, b), (4096, 3), (256, 255), (255, 256), (300, 1000)):
            group.tests.append(_sealed(mode, cipher, s, a, m))
        group.tests += _first_bits(mode, cipher, s)
        group.tests += _rejected(mode, cipher, s)
        yield group
    for mode, cipher, s in OTHER:
        group = _group(mode, cipher, s)
        group.tests += [_sealed(mode, cipher, s, a, m) for a, m in ((0, 0), (8, 16), (9, 7), (7, 8), (16, 1))]
        yield group
    yield from _tag_lengths()
    yield from _nonce_lengths()
    for param in (0x00, 0x01, 0x80, 0xFF):
        s = ParameterSet(1, 8, 6, 4, param)
        yield _group("CLOC", "TWINE-80", s, [_test("CLOC", "TWINE-80", s, f"param {param:02x}", ("Param",), counting(9), counting(9))])


def _group(mode: str, cipher: str, s: ParameterSet, tests: list[Chosen] | None = None) -> Group:
    head = {"mode": mode, "cipher": cipher, "keySize": 8 * FUNCTIONS[cipher][1]}
    return Group("AeadTest", head | {"ivSize": 8 * s.n, "tagSize": 8 * s.t, "param": f"{s.param:x}"}, tests or [])


def _published() -> Group:
    s = ParameterSet(1, 16, 11, 16, 0x00)
    fields: Fields = [("mode", "CLOC"), ("cipher", "AES-128"), ("key", "00102030405060708090a0b0c0d0e0f0"), *set_fields(s)]
    fields += [("nonce", "112233445566778899aabb"), ("label", "ff0102030405060708090a0b0c0d")]
    fields += [("contents", "86012204ccebf09ad5305ea8967aebd00dd9c05cbde9407ff1ef52f043a2")]
    comment = "CLOC, FSE 2014, table 2; it has no param: the first byte of its nonce is taken as param, the other eleven as nonce"
    return _group("CLOC", "AES-128", s, [Chosen(comment, ("Published", "FirstBit"), "mode", fields)])


def _test(mode: str, cipher: str, s: ParameterSet, comment: str, flags: tuple[str, ...], label: bytes, contents: bytes) -> Chosen:
    fields: Fields = [("mode", mode), ("cipher", cipher), ("key", key_of(cipher)), *set_fields(s)]
    return Chosen(comment, flags, "mode", fields + [("nonce", counting(s.n, 0xA0)), ("label", label), ("contents", contents)])


def _sealed(mode: str, cipher: str, s: ParameterSet, a: int, m: int) -> Chosen:
    b = s.width
    flags = ["BlockBoundary"] if a % b in (0, 1, b - 1) or m % b in (0, 1, b - 1) else []
    flags += ["LongerThan255"] * (max(a, m) > 255)
    flags += ["EmptyLabel"] * (a == 0) + ["EmptyContents"] * (m == 0) + ["OneBlockLabel"] * (a == b)
    return _test(mode, cipher, s, f"label of {a} bytes, contents of {m}", tuple(flags), counting(a), counting(m, 0x50))


def _first_bits(mode: str, cipher: str, s: ParameterSet) -> Iterator[Chosen]:
    for a in (1, s.width, s.width + 1):
        yield _test(mode, cipher, s, f"first bit of a label of {a} bytes set", ("FirstBit",), b"\x80" + counting(a - 1), counting(5))
    yield _test(mode, cipher, s, "label of ones, contents of ones", ("FirstBit",), b"\xff" * s.width, b"\xff" * 2 * s.width)


def _tag_lengths() -> Iterator[Group]:
    for mode, cipher in (("CLOC", "AES-128"), ("SILC", "PRESENT-80")):
        b = FUNCTIONS[cipher][0]
        for t in range(1, b + 1):
            s = ParameterSet(MODES[mode].code, b, 4, t, 0x77)
            yield _group(mode, cipher, s, [_test(mode, cipher, s, f"tag of {t} bytes", ("TagLength",), counting(5), counting(b + 3))])


def _nonce_lengths() -> Iterator[Group]:
    for mode, cipher in (("SILC", "AES-128"), ("CLOC", "TWINE-80")):
        b = FUNCTIONS[cipher][0]
        for n in range(1, b - 1):
            s = ParameterSet(MODES[mode].code, b, n, b, 0x66)
            yield _group(mode, cipher, s, [_test(mode, cipher, s, f"nonce of {n} bytes", ("NonceLength",), counting(5), counting(3))])


def _rejected(mode: str, cipher: str, s: ParameterSet) -> Iterator[Chosen]:
    """Openings of something else than was sealed."""
    b, nonce, label, contents = s.width, counting(s.n, 0xA0), counting(s.width - 1), counting(s.width + 3, 0x50)
    sealing = made(mode, cipher)

    def seal(by: Mode, s: ParameterSet, label: bytes) -> tuple[bytes, bytes, int]:
        return by.seal(s, nonce, label, contents, len(contents), s.t, WORK)

    ciphertext, tag, _ = seal(sealing, s, label)
    one_more = ParameterSet(s.code, b, s.n, s.t, s.param ^ 1)
    other = made("SILC" if mode == "CLOC" else "CLOC", cipher)
    swapped, swapped_tag, _ = seal(other, ParameterSet(3 - s.code, b, s.n, s.t, s.param), label)
    another, another_tag, _ = seal(sealing, one_more, label)
    padded, padded_tag, _ = seal(sealing, s, label + (b"\x80" if mode == "CLOC" else b"\0"))
    odd, odd_tag, _ = seal(made(mode, cipher, key=flipped(key_of(cipher))), s, label)
    for comment, flag, given in (
        ("first bit of the tag changed", "DamagedTag", (nonce, label, ciphertext, flipped(tag, 0, 0x80))),
        ("last bit of the tag changed", "DamagedTag", (nonce, label, ciphertext, flipped(tag))),
        ("every bit of the tag changed", "DamagedTag", (nonce, label, ciphertext, bytes(x ^ 0xFF for x in tag))),
        ("tag of zeros", "DamagedTag", (nonce, label, ciphertext, bytes(s.t))),
        ("last bit of the label changed", "WrongLabel", (nonce, flipped(label), ciphertext, tag)),
        ("no label in place of one", "WrongLabel", (nonce, b"", ciphertext, tag)),
        ("sealed with the label's padding as part of the label", "WrongLabel", (nonce, label, padded, padded_tag)),
        ("last bit of the nonce changed", "WrongNonce", (flipped(nonce), label, ciphertext, tag)),
        ("first bit of the nonce changed", "WrongNonce", (flipped(nonce, 0, 0x80), label, ciphertext, tag)),
        ("first bit of the ciphertext changed", "WrongCiphertext", (nonce, label, flipped(ciphertext, 0, 0x80), tag)),
        ("last bit of the ciphertext changed", "WrongCiphertext", (nonce, label, flipped(ciphertext), tag)),
        ("ciphertext one byte shorter", "WrongCiphertext", (nonce, label, ciphertext[:-1], tag)),
        ("ciphertext with a zero behind it", "WrongCiphertext", (nonce, label, ciphertext + b"\0", tag)),
        ("no ciphertext", "WrongCiphertext", (nonce, label, b"", tag)),
        ("sealed under another param", "WrongSet", (nonce, label, another, another_tag)),
        ("sealed by the other mode", "WrongSet", (nonce, label, swapped, swapped_tag)),
        ("sealed under a key with its last bit changed", "WrongKey", (nonce, label, odd, odd_tag)),
    ):
        yield Chosen(comment, (flag,), "rejected", _open_fields(mode, cipher, s, *given))


def _open_fields(mode: str, cipher: str, s: ParameterSet, nonce: bytes, label: bytes, ciphertext: bytes, tag: bytes) -> Fields:
    fields: Fields = [("op", "open"), ("mode", mode), ("cipher", cipher), ("key", key_of(cipher)), ("q", NO_END), *set_fields(s)]
    fields += [("nonce", nonce), ("label", label), ("text", ciphertext), ("out", len(ciphertext)), ("work", WORK)]
    return fields + [("tag", tag)]
