"""Tubes whose form is damaged."""

from __future__ import annotations

from . import tube
from .choices import Choices
from .refusals import Refusal


def wire_with_counts(sections: list[bytes], counts: list[int]) -> bytes:
    return b"".join(count.to_bytes(4, "big") + text for text, count in zip(sections, counts))


def malformed(choose: Choices, wire: bytes) -> bytes:
    """A tube whose form is damaged, in any section, or bytes that are none."""
    form = choose.random.randrange(7)
    if form == 0:
        return wire + choose.byte_string(choose.of(1, 1, 4, choose.random.randint(1, 40)))
    if form == 1:
        return wire[: choose.random.randrange(len(wire) + 1)]
    if form == 2:
        return choose.byte_string(choose.random.randrange(60))
    try:
        read = tube.read(wire)
    except Refusal:
        return wire
    if form == 3:  # cut at or beside a border of two sections
        return wire[: max(0, choose.of(*read.places) + choose.of(-5, -4, -3, -1, 0, 1))]
    counts = [len(section) for section in read.sections]
    for _ in range(choose.of(1, 1, 1, 2)):
        i = choose.random.randrange(5)
        edge, anything = tube.RANGES[i][1] + 1, choose.random.randrange(2**32)
        counts[i] = choose.near(counts[i], edge, edge - 1, 1, 2, 2**31, 2**32 - 1, anything, counts[i] << 8) % 2**32
    return wire_with_counts(list(read.sections), counts)
