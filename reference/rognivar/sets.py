"""Parameter sets: their rule, and the sets of the CLOC and SILC v3 submission (docs/sets.md)."""

from __future__ import annotations

from dataclasses import dataclass

from .refusals import Refusal

CLOC, SILC = 1, 2


@dataclass(frozen=True)
class ParameterSet:
    """Code, width, nonce length, tag length and param. One that breaks its rule can't be made (4, with the first wrong field)."""

    code: int
    width: int
    n: int
    t: int
    param: int

    def __post_init__(self) -> None:
        rules = (
            self.code in (CLOC, SILC),
            self.width in (8, 16),
            1 <= self.n <= self.width - 2,
            1 <= self.t <= self.width,
        )
        for field, kept in enumerate(rules, start=1):
            if not kept:
                raise Refusal(4, field)


# Tables 1 and 2 of the submission: the first param of each row of tag lengths.
AES_TAGS = (8, 12, 16, 4)
SMALL_TAGS = (4, 6, 8)
ROWS = {(code, "AES-128", n): (first, AES_TAGS) for code in (CLOC, SILC) for n, first in ((12, 0xC0), (8, 0xD0), (14, 0xE0))}
for _code, _cipher, _six, _four in ((CLOC, "TWINE-80", 0xC4, 0xD4), (SILC, "PRESENT-80", 0xC4, 0xD4), (SILC, "LED-80", 0xC8, 0xD8)):
    ROWS[_code, _cipher, 6] = (_six, SMALL_TAGS)
    ROWS[_code, _cipher, 4] = (_four, SMALL_TAGS)


def lookup(code: int, cipher: str, n: int, t: int) -> ParameterSet | None:
    first, tags = ROWS.get((code, cipher, n), (0, ()))
    if t not in tags:
        return None
    return ParameterSet(code, 16 if cipher == "AES-128" else 8, n, t, first + tags.index(t))
