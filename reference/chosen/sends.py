"""Vectors of the sending end."""

from __future__ import annotations

from collections.abc import Iterator
from dataclasses import dataclass
from itertools import combinations

from rognivar.ciphers import NO_END
from rognivar.ends import last_number
from rognivar.choices import Fields
from rognivar.modes import MODES, WORK
from rognivar.sets import ParameterSet
from rognivar.tube import length

from .group import RECOMMENDED, Chosen, Group, counting, key_of, made, set_fields

NAME = "send"
FLAGS = {
    "Start": "the start is at or outside a border",
    "Numbers": "several sends: each takes the next number, a refused one takes none",
    "Last": "the last number of the set is sent",
    "Allowance": "the quota runs out at, before or after a send",
    "OneCause": "one cause of refusal applies",
    "Order": "two causes apply: the first in the order of the checks refuses",
    "SetRule": "the set breaks its rule, and no end exists",
}


def groups() -> Iterator[Group]:
    for mode, cipher, s in RECOMMENDED:
        group = Group("SendTest", {"mode": mode, "cipher": cipher})
        group.tests.append(_lengths(mode, cipher, s))
        yield group
    mode, cipher, s = RECOMMENDED[3]
    group = Group("SendTest", {"mode": mode, "cipher": cipher})
    group.tests += [*_starts(mode, cipher), *_numbers(mode, cipher, s), *_order(mode, cipher, s), *_rules(mode, cipher)]
    yield group
    wide = Group("SendTest", {"mode": "CLOC", "cipher": "AES-128"})
    wide.tests += _wide()
    yield wide


@dataclass(frozen=True)
class Step:
    """A send; more is what the output part has above the tube's length."""

    label: bytes = b"A1"
    contents: bytes = b"123"
    more: int = 0
    work: int = WORK


def _test(comment: str, flags: tuple[str, ...], mode: str, cipher: str, s: ParameterSet, start: int, quota: int, steps: list[Step]) -> Chosen:
    fields: Fields = [("mode", mode), ("cipher", cipher), ("key", key_of(cipher)), ("q", quota), *set_fields(s), ("start", start)]
    fields.append(("steps", len(steps)))
    for i, step in enumerate(steps):
        wanted = length(s.n, s.t, len(step.label), len(step.contents))
        fields += [(f"op.{i}", "send"), (f"label.{i}", step.label), (f"contents.{i}", step.contents)]
        fields += [(f"out.{i}", wanted + step.more), (f"work.{i}", step.work)]
    return Chosen(comment, flags, "send", fields)


def _lengths(mode: str, cipher: str, s: ParameterSet) -> Chosen:
    b = s.width
    steps = [Step(counting(a), counting(m, 0x50), more) for a, m, more in ((0, 0, 0), (b, b, 9), (b + 1, b - 1, 0), (1, 2 * b, 0))]
    return _test("labels and contents at borders of blocks", ("Numbers",), mode, cipher, s, 1, NO_END, steps)


def _starts(mode: str, cipher: str) -> Iterator[Chosen]:
    for n in range(1, 7):
        s = ParameterSet(MODES[mode].code, 8, n, 4, 0x40)
        last = last_number(n)
        yield _test(f"n = {n}: the last number, and none after it", ("Last", "Start"), mode, cipher, s, last, NO_END, [Step(), Step(), Step(more=-1)])
        yield _test(f"n = {n}: a start above the last number", ("Start",), mode, cipher, s, last + 1, NO_END, [])
    s = ParameterSet(MODES[mode].code, 8, 6, 4, 0xC4)
    yield _test("a start of 0", ("Start",), mode, cipher, s, 0, NO_END, [])
    yield _test("a start of 2^64 - 1", ("Start",), mode, cipher, s, NO_END, NO_END, [])


def _numbers(mode: str, cipher: str, s: ParameterSet) -> Iterator[Chosen]:
    refused = [Step(), Step(more=-1), Step(), Step(work=63), Step(label=bytes(4097)), Step()]
    yield _test("a refused send takes no number", ("Numbers",), mode, cipher, s, 254, NO_END, refused)
    yield _test("the last two numbers", ("Last", "Numbers"), mode, cipher, s, last_number(6) - 1, NO_END, [Step()] * 3)
    count = made(mode, cipher).count("seal", 2, 3)
    for spare in (-1, 0, 1):
        yield _test(f"a quota for two sends {spare:+d}", ("Allowance",), mode, cipher, s, 1, 2 * count + spare, [*[Step()] * 3, Step(b"", b"")])
    yield _test("a quota of nothing", ("Allowance",), mode, cipher, s, 1, 0, [Step()])


def _order(mode: str, cipher: str, s: ParameterSet) -> Iterator[Chosen]:
    """Causes in the order 6, 9, 13, 10, 11, and 7 where the set is the other mode's."""
    count, last = made(mode, cipher).count("seal", 2, 3), last_number(s.n)
    other = ParameterSet(3 - s.code, s.width, s.n, s.t, s.param)
    names = ("work memory of 65 bytes", "the other mode's set", "label above the limit", "the last number was sent", "output part too short", "quota too small")
    for chosen in [*((name,) for name in names), *combinations(names, 2)]:
        if chosen == (names[1], names[3]):  # an end with the other mode's set sends no number at all
            continue
        spent = names[3] in chosen
        label = bytes(4097) if names[2] in chosen else b"A1"
        step = Step(label, more=-1 if names[4] in chosen else 0, work=65 if names[0] in chosen else WORK)
        foreign = names[1] in chosen
        quota = (count if spent and not foreign else 0) + (count - 1 if names[5] in chosen else count)
        steps = [Step(), step] if spent else [step]
        flags = ("Order",) if len(chosen) == 2 else ("OneCause",)
        yield _test(", ".join(chosen), flags, mode, cipher, other if foreign else s, last if spent else 7, quota, steps)


def _rules(mode: str, cipher: str) -> Iterator[Chosen]:
    for values in ((3, 8, 6, 4), (2, 12, 6, 4), (2, 8, 7, 4), (2, 8, 6, 9)):
        fields: Fields = [("mode", mode), ("cipher", cipher), ("key", key_of(cipher)), ("q", NO_END), *zip(("code", "width", "n", "t"), values)]
        fields += [("param", 0xC4), ("start", 0), ("steps", 0)]
        yield Chosen(f"set {values} and a start of 0", ("SetRule",), "send", fields)


def _wide() -> Iterator[Chosen]:
    for n in (7, 8, 14):
        s = ParameterSet(1, 16, n, 16, 0x41)
        yield _test(f"n = {n}: numbers end at 2^48 - 1 all the same", ("Last",), "CLOC", "AES-128", s, 2**48 - 1, NO_END, [Step(), Step()])
        yield _test(f"n = {n}: a start of 2^48", ("Start",), "CLOC", "AES-128", s, 2**48, NO_END, [])
    s = ParameterSet(1, 16, 12, 8, 0xC0)
    yield _test("the other width's set", ("OneCause",), "CLOC", "AES-128", ParameterSet(1, 8, 6, 8, 0xC0), 1, NO_END, [Step()])
    yield _test("label at its limit", ("Numbers",), "CLOC", "AES-128", s, 1, NO_END, [Step(counting(4096))])
