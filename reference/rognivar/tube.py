"""The tube: one sealed message on the wire, in five sections (docs/tube.md)."""

from __future__ import annotations

from dataclasses import dataclass

from .refusals import Refusal

# The least and the largest count of each section: set, number, label, contents, tag.
RANGES = ((2, 2), (1, 16), (0, 4096), (0, 1048576), (1, 16))


@dataclass(frozen=True)
class Tube:
    """The bytes of the five sections, and the place of the first byte of each."""

    sections: tuple[bytes, ...]
    places: tuple[int, ...]

    @property
    def code(self) -> int:
        return self.sections[0][0]

    @property
    def param(self) -> int:
        return self.sections[0][1]

    @property
    def nonce(self) -> bytes:
        return self.sections[1]

    @property
    def label(self) -> bytes:
        return self.sections[2]

    @property
    def contents(self) -> bytes:
        return self.sections[3]

    @property
    def tag(self) -> bytes:
        return self.sections[4]

    @property
    def number(self) -> int:
        return int.from_bytes(self.nonce, "big")


def section(text: bytes) -> bytes:
    return len(text).to_bytes(4, "big") + text


def write(code: int, param: int, nonce: bytes, label: bytes, ciphertext: bytes, tag: bytes) -> bytes:
    return b"".join(map(section, (bytes((code, param)), nonce, label, ciphertext, tag)))


def length(n: int, t: int, a: int, m: int) -> int:
    return 22 + n + t + a + m


def read(wire: bytes) -> Tube:
    sections, places = [], []
    place = 0
    for number, (least, largest) in enumerate(RANGES, start=1):
        if len(wire) < place + 4:
            raise Refusal(14, number, place)
        count = int.from_bytes(wire[place : place + 4], "big")
        if not least <= count <= largest:
            raise Refusal(14, number, place)
        place += 4
        if len(wire) < place + count:
            raise Refusal(14, number, place)
        places.append(place)
        sections.append(wire[place : place + count])
        place += count
    if len(wire) > place:
        raise Refusal(14, 6, place)
    return Tube(tuple(sections), tuple(places))
