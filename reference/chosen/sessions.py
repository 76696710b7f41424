"""Vectors of the receiving end: what is opened, signed and given back, and what is refused."""

from __future__ import annotations

from collections.abc import Iterator
from itertools import combinations

from rognivar import tube
from rognivar.ciphers import NO_END
from rognivar.choices import Fields
from rognivar.modes import MODES, WORK
from rognivar.sets import ParameterSet

from .group import RECOMMENDED, Chosen, Group, counting, flipped, key_of, made, set_fields

NAME = "session"
FLAGS = {
    "Accepted": "every tube is opened and signed",
    "Replay": "a tube comes again after it was signed",
    "Old": "a number at or beside the old edge of the window",
    "Window": "signatures that move the 64 marks, by less than, exactly or more than 64",
    "Floor": "numbers at or below the floor",
    "Return": "a tube is given back and opened again",
    "Last": "numbers at or above the last number of the set",
    "WrongSet": "a tube of another set",
    "WrongForm": "bytes that are no tube",
    "WrongTag": "a tube that was not sealed so",
    "Allowance": "the quota runs out at, before or after an open",
    "Order": "two causes apply: the first in the order of the checks refuses",
    "SetRule": "the set breaks its rule, and no end exists",
}
SIGN, RETURN = "sign", "return"


class Link:
    """A mode, a cipher and a set; makes tubes and sessions."""

    def __init__(self, mode: str, cipher: str, s: ParameterSet) -> None:
        self.mode, self.cipher, self.set = mode, cipher, s

    def tube(self, number: int, label: bytes = b"A1", contents: bytes = b"123") -> bytes:
        s, nonce = self.set, number.to_bytes(self.set.n, "big")
        ciphertext, tag, _ = made(self.mode, self.cipher).seal(s, nonce, label, contents, len(contents), s.t, WORK)
        return tube.write(s.code, s.param, nonce, label, ciphertext, tag)

    def session(self, comment: str, flags: tuple[str, ...], floor: int, steps: list, quota: int = NO_END, s: ParameterSet | None = None) -> Chosen:
        """Steps are SIGN, RETURN, a number (its tube is opened), bytes to open, or bytes with lengths of the output part and work memory."""
        fields: Fields = [("mode", self.mode), ("cipher", self.cipher), ("key", key_of(self.cipher)), ("q", quota)]
        fields += [*set_fields(s or self.set), ("window", 64), ("floor", floor), ("steps", len(steps))]
        for i, step in enumerate(steps):
            if isinstance(step, str):
                fields.append((f"op.{i}", step))
                continue
            wire, out, work = step if isinstance(step, tuple) else (step, 40, WORK)
            wire = self.tube(wire) if isinstance(wire, int) else wire
            fields += [(f"op.{i}", "open"), (f"tube.{i}", wire), (f"out.{i}", out), (f"work.{i}", work)]
        return Chosen(comment, flags, "session", fields)


def groups() -> Iterator[Group]:
    for mode, cipher, s in RECOMMENDED:
        link = Link(mode, cipher, s)
        group = Group("SessionTest", {"mode": mode, "cipher": cipher})
        group.tests += [_lengths(link), _damage(link)]
        yield group
    link = Link(*RECOMMENDED[3])
    group = Group("SessionTest", {"mode": link.mode, "cipher": link.cipher})
    group.tests += [*_replays(link), *_windows(link), *_floors(link), *_others(link), *_allowance(link), *_order(link), *_rules(link)]
    yield group
    yield from _last_numbers()


def signed(*numbers: int) -> list:
    return [step for number in numbers for step in (number, SIGN)]


def _lengths(link: Link) -> Chosen:
    b = link.set.width
    steps: list = []
    for number, (a, m) in enumerate(((0, 0), (b, b), (b + 1, b - 1), (1, 2 * b + 1)), start=1):
        steps += [(link.tube(number, counting(a), counting(m, 0x50)), m + number - 1, WORK), SIGN]
    return link.session("labels and contents at borders of blocks", ("Accepted",), 0, steps, 500)


def _damage(link: Link) -> Chosen:
    wire = link.tube(1)
    tag, contents, label = len(wire) - 1, len(wire) - link.set.t - 5, 10 + link.set.n + 4
    steps: list = [flipped(wire, place) for place in (tag, len(wire) - link.set.t, contents, label)]
    return link.session("tag, contents and label changed, then the true tube", ("WrongTag",), 0, [*steps, wire, SIGN], 500)


def _replays(link: Link) -> Iterator[Chosen]:
    yield link.session("a tube twice", ("Replay",), 0, [*signed(1), 1], 100)
    yield link.session("a tube again after others", ("Replay",), 0, [*signed(1, 2, 3), 1, 2, 3, 4])
    yield link.session("out of order, each twice", ("Replay", "Window"), 0, [*signed(5, 2, 4, 1, 3), 1, 2, 3, 4, 5, 6])
    yield link.session("another tube under a number signed", ("Replay",), 0, [*signed(9), link.tube(9, b"other", b"contents")])
    yield link.session("given back, opened again, signed, refused", ("Return", "Replay"), 0, [3, RETURN, 3, SIGN, 3])
    yield link.session("given back three times", ("Return",), 0, [3, RETURN, 3, RETURN, 3, RETURN, 3])
    yield link.session("given back, another signed in between", ("Return",), 0, [3, RETURN, *signed(4), 3, SIGN, 4])
    yield link.session("a higher number given back moves nothing", ("Return", "Old"), 0, [200, RETURN, *signed(1), 2, SIGN, 1])
    yield link.session("nothing signed by a wrong tag of a high number", ("WrongTag", "Old"), 0, [flipped(link.tube(500)), *signed(1), 500, SIGN, 1])
    yield link.session("a session that ends holding", ("Accepted",), 0, [*signed(1), 2])
    yield link.session("no call at all", ("Accepted",), 0, [])


def _windows(link: Link) -> Iterator[Chosen]:
    yield link.session("70 signed: 6 is old, 7 is not, 70 is signed", ("Old", "Replay"), 0, [*signed(70), 6, *signed(7), 70, 7])
    for jump in (1, 2, 62, 63, 64, 65, 66, 127, 128, 129, 2**32, 2**40):
        high = 100 + jump
        edge = [high - 65, high - 64, high - 63, 99, 100, 101, high]
        yield link.session(f"100 and then {high} signed", ("Window", "Old"), 90, [*signed(100, high), *(n for n in edge if _refused(n, high))])
    for high in (63, 64, 65):
        yield link.session(f"{high} signed: is 1 old?", ("Old",), 0, [*signed(high), 1, *([SIGN, 1] if high <= 64 else [])])
    yield link.session("the lowest mark: signed, not open again", ("Window", "Replay"), 0, [*signed(64, 1), 1, *signed(65), 1, 2])
    evens = [*range(2, 65, 2)]
    yield link.session("every second number of a window, then the others down", ("Window",), 0, [*signed(*evens), *signed(63, 33, 31, 1), 64, 32, 2])
    yield link.session("falling numbers", ("Window",), 0, [*signed(*range(80, 60, -1)), 80, 61, *signed(17), 16])


def _refused(number: int, high: int) -> bool:
    """Whether an open of the number is refused once 100 and high are signed, the floor being 90: sessions go on only after refusals."""
    return number <= high - 64 or number <= 90 or number in (100, high)


def _floors(link: Link) -> Iterator[Chosen]:
    for floor in (1, 63, 64, 65, 1000):
        below = [max(floor - 64, 0), max(floor - 63, 1), floor]
        yield link.session(f"floor {floor}: at and around it", ("Floor", "Old"), floor, [*below, *signed(floor + 1), floor, floor + 1, *signed(floor + 3)])
    yield link.session("floor 0 and number 0", ("Floor", "Last"), 0, [0, *signed(1), 0])
    yield link.session("floor at the last number: nothing can be signed", ("Floor", "Last"), 2**48 - 1, [2**48 - 1, 2**48 - 64, 2**48 - 65, 1])
    yield link.session("a floor above the last number", ("Floor",), 2**48, [])
    yield link.session("a floor of 2^64 - 1", ("Floor",), NO_END, [])


def _others(link: Link) -> Iterator[Chosen]:
    s, wire = link.set, link.tube(1)
    body = wire[10 + s.n :]

    def head(code: int, param: int, nonce: bytes) -> bytes:
        return tube.section(bytes((code, param))) + tube.section(nonce) + body

    one = b"\0\0\0\0\0\1"
    other = [head(1, s.param, one), head(s.code, 0xC5, one), head(s.code, s.param, one[1:]), head(s.code, s.param, b"\0" + one)]
    tags = [wire[:-8] + tube.section(wire[-4:-1]), wire[:-8] + tube.section(wire[-4:] + b"\0")]
    yield link.session("code, param, nonce length and tag length of another set", ("WrongSet",), 0, [*other, *tags, *signed(1)], 6)
    both = head(1, 0xC5, one[1:])[:-8] + tube.section(b"123")
    yield link.session("all of them at once, then two", ("WrongSet", "Order"), 0, [both, head(s.code, s.param, one[1:])[:-8] + tube.section(b"123")])
    yield link.session("sealed under a number, sent under another", ("WrongTag",), 0, [head(s.code, s.param, b"\0\0\0\0\0\2"), *signed(1)])
    swapped = link.tube(1, b"A", b"1123")
    yield link.session("a byte moved from label to contents", ("WrongTag",), 0, [swapped, RETURN, wire[:19] + b"\1" + wire[20:21] + b"\0\0\0\4" + wire[21:22] + wire[26:]])
    forms = [b"", wire[:-1], wire + b"\0", wire[:4], wire[:3] + b"\3" + wire[4:], wire[:25] + b"\xff" + wire[26:], counting(40)]
    yield link.session("bytes that are no tube, then the true one", ("WrongForm",), 0, [*forms, *signed(1)], 6)


def _allowance(link: Link) -> Iterator[Chosen]:
    open_count, refused = (made(link.mode, link.cipher).count(which, 2, 3) for which in ("open", "refused"))
    wrong = flipped(link.tube(1))
    for spare in (-1, 0, 1):
        yield link.session(f"a quota for two opens {spare:+d}", ("Allowance",), 0, [*signed(1), *([2, SIGN, 3] if spare >= 0 else [2, 2])], 2 * open_count + spare)
    yield link.session("wrong tags until too little is left for an open", ("Allowance", "WrongTag"), 0, [wrong] * 5, 3 * refused + open_count - 1)
    yield link.session("a wrong tag is refused for the quota where an accepted opening would be", ("Allowance", "WrongTag"), 0, [wrong, 1], open_count - 1)
    yield link.session("a quota of nothing", ("Allowance",), 0, [1, wrong], 0)
    yield link.session("no end: wrong tags cost nothing that shows", ("Allowance", "WrongTag"), 0, [wrong, wrong, *signed(1)])


def _order(link: Link) -> Iterator[Chosen]:
    """Causes in the order 6, 7, 14, 15, 16 (or 17 or 18), 10, 11, 12: each two at once."""
    s, count = link.set, made(link.mode, link.cipher).count("open", 2, 3)
    names = ("work memory of 65 bytes", "the mode is not the set's", "one byte more", "another param", "number 0", "old number", "signed number")
    names += ("output part too short", "quota too small", "wrong tag")
    numbers = {"number 0": 0, "old number": 136, "signed number": 137}
    for first, second in combinations(names, 2):
        chosen = {first, second}
        if len(chosen & set(numbers)) == 2:
            continue
        number = next((numbers[name] for name in chosen if name in numbers), 201)
        wire = link.tube(number)
        wire = flipped(wire) if "wrong tag" in chosen else wire
        wire = flipped(wire, 5) if "another param" in chosen else wire
        wire = wire + b"\0" if "one byte more" in chosen else wire
        out, work = (2 if "output part too short" in chosen else 3), (65 if "work memory of 65 bytes" in chosen else WORK)
        quota = count - 1 if "quota too small" in chosen else count
        other = ParameterSet(3 - s.code, s.width, s.n, s.t, s.param) if "the mode is not the set's" in chosen else s
        yield link.session(f"{first}, {second}", ("Order",), 200, [(wire, out, work)], quota, other)


def _rules(link: Link) -> Iterator[Chosen]:
    for values in ((3, 8, 6, 4), (2, 12, 6, 4), (2, 8, 7, 4), (2, 8, 6, 9)):
        fields: Fields = [("mode", link.mode), ("cipher", link.cipher), ("key", key_of(link.cipher)), ("q", NO_END)]
        fields += [*zip(("code", "width", "n", "t"), values), ("param", 0xC4), ("window", 64), ("floor", NO_END), ("steps", 0)]
        yield Chosen(f"set {values} and a floor of 2^64 - 1", ("SetRule",), "session", fields)


def _last_numbers() -> Iterator[Group]:
    for mode, cipher, lengths in (("SILC", "PRESENT-80", (1, 2, 6)), ("CLOC", "AES-128", (6, 7, 8, 14))):
        group = Group("SessionTest", {"mode": mode, "cipher": cipher})
        for n in lengths:
            s = ParameterSet(MODES[mode].code, made(mode, cipher).b, n, 4, 0x42)
            link, last = Link(mode, cipher, s), 2 ** (8 * min(n, 6)) - 1
            above = [last + 1, 256**n - 1] if n > 6 else []
            steps = [0, *above, *signed(last), last, last - 64, *signed(last - 63), *above, last - 1]
            group.tests.append(link.session(f"n = {n}: up to the last number and above", ("Last", "Old"), 0, steps))
        yield group
