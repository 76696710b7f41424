"""The ledger of a receiving end: which numbers are old, signed or open (docs/tube.md).

It keeps every signature, and says everything from them by the definition.
"""

from __future__ import annotations

WINDOW = 64


class Ledger:
    def __init__(self, floor: int) -> None:
        self.floor = floor
        self.signatures: list[int] = []

    @property
    def high(self) -> int:
        """h: the larger of the floor and all numbers signed."""
        return max([self.floor, *self.signatures])

    def is_old(self, number: int) -> bool:
        return number <= self.high - WINDOW

    def is_signed(self, number: int) -> bool:
        """Of a number that is not old."""
        return number <= self.floor or number in self.signatures

    def sign(self, number: int) -> None:
        self.signatures.append(number)

    @property
    def marks(self) -> int:
        """Bit i says whether h - i is signed."""
        high = self.high
        return sum(self.is_signed(high - i) << i for i in range(WINDOW))
