"""Choices from a seed: lengths, bytes, sets and quotas near the borders that the rules have."""

from __future__ import annotations

from random import Random
from typing import TypeVar

from . import tube
from .ciphers import FUNCTIONS, NO_END, Cipher, Meter
from .modes import MODES, WORK, Mode
from .refusals import Refusal
from .sets import ROWS, ParameterSet

Value = str | int | bytes
Fields = list[tuple[str, Value]]
T = TypeVar("T")


def line(kind: str, case: int | str, fields: Fields) -> str:
    """The inputs of a case as a line."""

    def form(value: Value) -> str:
        if isinstance(value, bytes):
            return value.hex()
        return f"{value:x}" if isinstance(value, int) else value

    return " ".join([f"kind={kind}", f"case={form(case)}", *(f"{name}={form(value)}" for name, value in fields)])


class Choices:
    """Choices from a seed. What is rare is said by chance in 1 of so many."""

    def __init__(self, seed: str) -> None:
        self.random = Random(seed)

    def rare(self, one_in: float) -> bool:
        return self.random.random() * one_in < 1

    def of(self, *values: T) -> T:
        return self.random.choice(values)

    def byte_string(self, length: int) -> bytes:
        """Random bytes mostly; else zeros, ones, the first bit alone, or random with the first bit set."""
        drawn = self.random.randbytes(length)
        form = self.random.randrange(12)
        if form == 0:
            return bytes(length)
        if form == 1:
            return b"\xff" * length
        if form == 2:
            return (b"\x80" + bytes(length))[:length]
        if form == 3 and length:
            return bytes((drawn[0] | 0x80,)) + drawn[1:]
        return drawn

    def one_bit(self, length: int) -> bytes:
        return (1 << self.random.randrange(8 * length)).to_bytes(length, "big")

    def near(self, value: int, *others: int) -> int:
        """The value one up or one down, 0, or one of the others; never below 0."""
        return max(0, self.of(value - 1, value + 1, 0, *others))

    def length(self, b: int) -> int:
        """A length at or beside a border of blocks, or any small one; now and then a longer one."""
        if self.rare(2):
            return max(0, b * self.of(0, 0, 1, 1, 2, 3, 4) + self.of(-1, 0, 0, 1))
        if self.rare(60):
            return self.random.randrange(1200)
        return self.random.randrange(5 * b)

    def damaged(self, text: bytes) -> bytes:
        """The text with one bit, the first byte, the last byte or every byte changed; an empty one stays."""
        if not text:
            return text
        changed = bytearray(text)
        place = self.of(0, len(text) - 1, self.random.randrange(len(text)))
        if self.rare(8):
            return bytes(byte ^ 0xFF for byte in text)
        changed[place] ^= self.of(1 << self.random.randrange(8), 0xFF, 0x80, 1)
        return bytes(changed)

    def key(self, cipher: str) -> bytes:
        return self.byte_string(FUNCTIONS[cipher][1])

    def parameter_set(self, code: int, cipher: str) -> ParameterSet:
        """One of the submission's sets for the mode and the cipher, where there is one, or any that keeps the rule."""
        rows = [(n, first, tags) for (c, name, n), (first, tags) in ROWS.items() if (c, name) == (code, cipher)]
        width = FUNCTIONS[cipher][0]
        if rows and self.rare(2):
            n, first, tags = self.of(*rows)
            i = self.random.randrange(len(tags))
            return ParameterSet(code, width, n, tags[i], first + i)
        n, t = self.random.randint(1, width - 2), self.random.randint(1, width)
        return ParameterSet(code, width, self.of(n, 1, width - 2, n), self.of(t, 1, width, t), self.random.randrange(256))

    def set_fields(self, s: ParameterSet, broken: float, other: float) -> Fields:
        """The fields of the set; in 1 of so many with a rule broken, or of another mode or width."""
        code, width, n, t = s.code, s.width, s.n, s.t
        if self.rare(other):
            code, width = self.of((3 - code, width), (code, 24 - width), (3 - code, 24 - width))
            n, t = min(n, width - 2), min(t, width)
        if self.rare(broken):
            for _ in range(self.of(1, 1, 2, 4)):
                field = self.random.randrange(4)
                code = self.of(0, 3, 255) if field == 0 else code
                width = self.of(0, 7, 9, 15, 17, 255) if field == 1 else width
                n = self.of(0, max(width, 2) - 1, width, 255) if field == 2 else n
                t = self.of(0, min(width + 1, 255), 255) if field == 3 else t
        return [("code", code), ("width", width), ("n", n), ("t", t), ("param", s.param)]

    def quota(self, *counts: int) -> int:
        """No end, plenty, or at, just below or just above one of the counts."""
        if self.rare(2):
            return self.of(NO_END, NO_END, NO_END - 1, sum(counts) + self.random.randrange(100))
        return max(0, self.of(*counts, 0) + self.of(-1, 0, 0, 1))

    def quota_of(self, mode: Mode, wire: bytes) -> int:
        """About what opening a tube takes, or any small number where it is none."""
        try:
            read = tube.read(wire)
        except Refusal:
            return self.random.randrange(60)
        count = mode.count(self.of("open", "open", "refused"), len(read.label), len(read.contents))
        return max(0, count + self.of(-1, 0, 0, 1, 1, count))

    def work(self, one_in: float) -> int:
        return self.of(0, 1, 32, 63, 65, 128) if self.rare(one_in) else WORK

    def mode(self) -> tuple[str, str, bytes]:
        cipher = self.of(*FUNCTIONS)
        return self.of(*MODES), cipher, self.key(cipher)


def make(mode: str, cipher: str, key: bytes, quota: int = NO_END) -> Mode:
    made = Cipher(cipher)
    made.set_key(key)
    return MODES[mode](Meter(made, quota))


def set_of(set_fields: Fields) -> ParameterSet:
    return ParameterSet(*(int(value) for _, value in set_fields))
