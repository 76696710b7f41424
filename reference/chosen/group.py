"""What a group of tests is made of, and what most of them are made with."""

from __future__ import annotations

from dataclasses import dataclass, field

from rognivar.ciphers import FUNCTIONS, NO_END, Cipher, Meter
from rognivar.choices import Fields
from rognivar.modes import MODES, Mode
from rognivar.sets import ParameterSet

# Flag to what it means.
Flags = dict[str, str]


@dataclass(frozen=True)
class Chosen:
    """A test: what it is for, its flags, and the inputs of its case."""

    comment: str
    flags: tuple[str, ...]
    kind: str
    fields: Fields


@dataclass
class Group:
    """Tests of one type. The head is what the tests have in common."""

    type: str
    head: dict[str, str | int]
    tests: list[Chosen] = field(default_factory=list)


# The five sets that the submission recommends, with their mode and cipher.
RECOMMENDED = (
    ("CLOC", "AES-128", ParameterSet(1, 16, 12, 8, 0xC0)),
    ("SILC", "AES-128", ParameterSet(2, 16, 12, 8, 0xC0)),
    ("CLOC", "TWINE-80", ParameterSet(1, 8, 6, 4, 0xC4)),
    ("SILC", "PRESENT-80", ParameterSet(2, 8, 6, 4, 0xC4)),
    ("SILC", "LED-80", ParameterSet(2, 8, 6, 4, 0xC8)),
)


def counting(length: int, first: int = 0) -> bytes:
    return bytes((first + i) % 256 for i in range(length))


def key_of(cipher: str) -> bytes:
    return counting(FUNCTIONS[cipher][1], 0x10)


def made(mode: str, cipher: str, quota: int = NO_END, key: bytes | None = None) -> Mode:
    below = Cipher(cipher)
    below.set_key(key_of(cipher) if key is None else key)
    return MODES[mode](Meter(below, quota))


def set_fields(s: ParameterSet) -> Fields:
    return [("code", s.code), ("width", s.width), ("n", s.n), ("t", s.t), ("param", s.param)]


def flipped(text: bytes, place: int = -1, by: int = 1) -> bytes:
    changed = bytearray(text)
    changed[place] ^= by
    return bytes(changed)
