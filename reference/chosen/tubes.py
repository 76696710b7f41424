"""Vectors of the tube's form."""

from collections.abc import Iterator

from rognivar import tube
from rognivar.malformed import wire_with_counts

from .group import Chosen, Group, counting

NAME = "tube"
FLAGS = {
    "Valid": "five sections in their ranges, and nothing behind them",
    "Cut": "the tube ends early",
    "Count": "one section's count is changed, its bytes are not",
    "Range": "one section has a count outside its range, and as many bytes",
    "Extra": "bytes behind the last section",
}
BY_HAND = [b"\x02\xc4", bytes.fromhex("000000000005"), b"A1", bytes.fromhex("112233"), bytes.fromhex("aabbccdd")]
NAMES = ("set", "number", "label", "contents", "tag")


def groups() -> Iterator[Group]:
    group = Group("TubeTest", {})
    group.tests += [*_valid(), *_cut(), *_counts(), *_ranges(), *_extra()]
    yield group


def _test(comment: str, flag: str, wire: bytes) -> Chosen:
    return Chosen(comment, (flag,), "tube", [("wire", wire)])


def _written(sections: list[bytes]) -> bytes:
    return b"".join(map(tube.section, sections))


def _valid() -> Iterator[Chosen]:
    yield _test("the tube by hand in docs/tube.md", "Valid", _written(BY_HAND))
    yield _test("the shortest tube", "Valid", _written([b"\x01\xc0", b"\x01", b"", b"", b"\xaa"]))
    yield _test("number and tag of 16 bytes", "Valid", _written([b"\x01\xc0", counting(16), b"label", b"contents", counting(16)]))
    yield _test("label at its limit", "Valid", _written([b"\x01\xc0", b"\x01", counting(4096), b"x", b"\xaa"]))
    yield _test("empty label", "Valid", _written([b"\x01\xc0", b"\x01", b"", b"x", b"\xaa"]))
    yield _test("empty contents", "Valid", _written([b"\x01\xc0", b"\x01", b"x", b"", b"\xaa"]))
    yield _test("a code and a param that no set has", "Valid", _written([b"\xff\x00", b"\0", b"", b"", b"\0"]))
    yield _test("a label that reads like a section", "Valid", _written([b"\x02\xc4", b"\x05", bytes(3) + b"\x01\x00", b"", b"\xaa"]))
    yield _test("contents of 300 bytes", "Valid", _written([b"\x02\xc4", b"\x05", b"", counting(300), b"\xaa"]))


def _cut() -> Iterator[Chosen]:
    wire = _written(BY_HAND)
    for length in range(len(wire)):
        yield _test(f"the first {length} bytes of the tube by hand", "Cut", wire[:length])


def _counts() -> Iterator[Chosen]:
    true = [len(section) for section in BY_HAND]
    for i, name in enumerate(NAMES):
        limit = tube.RANGES[i][1]
        values = {0, true[i] - 1, true[i] + 1, limit, limit + 1, true[i] << 8, true[i] << 24, 2**31, 2**32 - 4, 2**32 - 1} - {true[i]}
        for value in sorted(values):
            counts = true[:i] + [value] + true[i + 1 :]
            yield _test(f"count of the section {name} is {value}, not {true[i]}", "Count", wire_with_counts(BY_HAND, counts))


def _ranges() -> Iterator[Chosen]:
    for i, lengths in enumerate(((0, 1, 3), (0, 17), (4097,), (), (0, 17))):
        for length in lengths:
            sections = BY_HAND[:i] + [counting(length)] + BY_HAND[i + 1 :]
            yield _test(f"section {NAMES[i]} of {length} bytes", "Range", _written(sections))


def _extra() -> Iterator[Chosen]:
    wire = _written(BY_HAND)
    yield _test("one byte more", "Extra", wire + b"\0")
    yield _test("an empty section more", "Extra", wire + bytes(4))
    yield _test("the tube twice", "Extra", wire + wire)
    yield _test("a tag section of one byte too few, and that byte behind it", "Extra", wire_with_counts(BY_HAND, [2, 6, 2, 3, 3]))
