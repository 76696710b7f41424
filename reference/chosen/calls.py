"""Vectors of the modes' calls: buffers, work memory, allowance, limits, and the order of the checks."""

from __future__ import annotations

from collections.abc import Callable, Iterator
from dataclasses import dataclass, replace
from itertools import combinations

from rognivar.ciphers import NO_END
from rognivar.choices import Fields
from rognivar.modes import CONTENTS_LIMIT, LABEL_LIMIT, WORK
from rognivar.sets import ParameterSet

from .group import RECOMMENDED, Chosen, Group, counting, flipped, key_of, made, set_fields

NAME = "call"
FLAGS = {
    "Accepted": "the call is carried out",
    "Allowance": "the quota is at, below or above what the call takes",
    "Limit": "a label or contents of 4,096 or 1,048,576 bytes, or one more",
    "OneCause": "one cause of refusal applies",
    "Order": "two causes apply: the first in the order of the checks refuses",
    "SetRule": "the set breaks its rule",
}


@dataclass(frozen=True)
class Call:
    """A call of a mode. The text is contents or ciphertext, zeros stands for so many zero bytes in its place; more is what the output part has
    above its length."""

    op: str
    mode: str
    cipher: str
    set: ParameterSet
    nonce: bytes
    label: bytes
    text: bytes
    tag: bytes
    tagpart: int
    zeros: int | None = None
    more: int = 0
    work: int = WORK
    quota: int = NO_END

    @property
    def length(self) -> int:
        return len(self.text) if self.zeros is None else self.zeros

    def with_quota(self, above_count: int) -> Call:
        """With a quota of so much above the count of the call, as if it were within the limits."""
        a, m = min(len(self.label), LABEL_LIMIT), min(self.length, CONTENTS_LIMIT)
        return replace(self, quota=made(self.mode, self.cipher).count("seal", a, m) + above_count)

    def chosen(self, comment: str, *flags: str) -> Chosen:
        fields: Fields = [("op", self.op), ("mode", self.mode), ("cipher", self.cipher), ("key", key_of(self.cipher)), ("q", self.quota)]
        fields += [*set_fields(self.set), ("nonce", self.nonce), ("label", self.label)]
        fields += [("text", self.text) if self.zeros is None else ("zeros", self.zeros)]
        fields += [("out", max(0, self.length + self.more)), ("work", self.work)]
        fields += [("tagpart", self.tagpart) if self.op == "seal" else ("tag", self.tag)]
        return Chosen(f"{self.op}: {comment}", flags, "modecall", fields)


# What each cause of refusal changes in an accepted call, in the order of the checks.
CAUSES: tuple[tuple[str, Callable[[Call], Call]], ...] = (
    ("work memory of 63 bytes", lambda call: replace(call, work=63)),
    ("a set of the other mode", lambda call: replace(call, set=replace(call.set, code=3 - call.set.code))),
    ("a nonce one byte short", lambda call: replace(call, nonce=call.nonce[:-1])),
    ("contents above the limit", lambda call: replace(call, zeros=CONTENTS_LIMIT + 1)),
    ("an output part one byte short", lambda call: replace(call, more=-1)),
    ("a tag part one byte short", lambda call: replace(call, tagpart=call.tagpart - 1, tag=call.tag[:-1])),
    ("a quota one below the count", lambda call: call.with_quota(-1)),
    ("a wrong tag", lambda call: replace(call, tag=flipped(call.tag, 0))),
)


def groups() -> Iterator[Group]:
    for mode, cipher, s in (RECOMMENDED[1], RECOMMENDED[2]):
        group = Group("ModeCallTest", {"mode": mode, "cipher": cipher})
        for op in ("seal", "open"):
            call = _call(op, mode, cipher, s)
            causes = CAUSES if op == "open" else CAUSES[:-1]
            group.tests += [change(call).chosen(name, "OneCause") for name, change in causes]
            group.tests += [two(one(call)).chosen(f"{first}, {second}", "Order") for (first, one), (second, two) in combinations(causes, 2)]
            group.tests += [*_lengths(call), *_allowance(call), *_limits(call)]
        group.tests += _wrong_tags(_call("open", mode, cipher, s))
        yield group
    yield _rules()


def _call(op: str, mode: str, cipher: str, s: ParameterSet) -> Call:
    nonce, label, contents = counting(s.n, 0xA0), counting(s.width + 1), counting(s.width + 3, 0x50)
    ciphertext, tag, _ = made(mode, cipher).seal(s, nonce, label, contents, len(contents), s.t, WORK)
    return Call(op, mode, cipher, s, nonce, label, contents if op == "seal" else ciphertext, tag, s.t)


def _lengths(call: Call) -> Iterator[Chosen]:
    for work in (0, 1, 65, 128):
        yield replace(call, work=work).chosen(f"work memory of {work} bytes", "OneCause")
    other = replace(call.set, width=24 - call.set.width, n=4, t=4)
    yield replace(call, set=other, nonce=b"1234").chosen("a set of the other width", "OneCause")
    yield replace(call, nonce=call.nonce + b"\0").chosen("a nonce one byte long", "OneCause")
    yield replace(call, nonce=b"").chosen("no nonce", "OneCause")
    yield replace(call, more=1).chosen("an output part one byte long", "OneCause")
    yield replace(call, tagpart=call.tagpart + 1, tag=call.tag + b"\0").chosen("a tag part one byte long", "OneCause")


def _allowance(call: Call) -> Iterator[Chosen]:
    yield call.with_quota(0).chosen("a quota of exactly the count", "Accepted", "Allowance")
    yield call.with_quota(1).chosen("a quota one above the count", "Accepted", "Allowance")
    yield replace(call, quota=0).chosen("a quota of nothing", "Allowance")
    yield replace(call, quota=NO_END - 1).chosen("a quota of 2^64 - 2, which has an end", "Accepted", "Allowance")
    yield call.chosen("no end", "Accepted", "Allowance")


def _limits(call: Call) -> Iterator[Chosen]:
    full = replace(call, zeros=CONTENTS_LIMIT)
    yield replace(full, more=-1).chosen("contents at the limit, output part too short", "Limit")
    yield full.with_quota(-1).chosen("contents at the limit, quota too small", "Limit")
    yield replace(call, label=counting(LABEL_LIMIT + 1)).chosen("label above the limit", "Limit")
    yield replace(call, label=counting(LABEL_LIMIT)).chosen("label at the limit", "Limit")
    if (call.op, call.mode) == ("seal", "SILC"):
        yield replace(call, zeros=65537).chosen("65,537 zeros, a length of three bytes in Len", "Limit", "Accepted")


def _wrong_tags(call: Call) -> Iterator[Chosen]:
    wrong = replace(call, tag=flipped(call.tag, 0))
    yield wrong.with_quota(0).chosen("a wrong tag, quota of exactly the count of an accepted opening", "Allowance")
    saved = -(-call.length // call.set.width)
    yield wrong.with_quota(-saved).chosen("a wrong tag, quota of exactly what refusing it takes", "Allowance")
    yield replace(call, text=b"").chosen("no ciphertext, wrong tag", "OneCause")


def _rules() -> Group:
    """Calls with a set that breaks its rule: refused by 4 before anything else."""
    mode, cipher, s = RECOMMENDED[3]
    group = Group("ModeCallTest", {"mode": mode, "cipher": cipher})
    for values in ((0, 8, 6, 4), (2, 12, 6, 4), (2, 8, 7, 4), (2, 8, 0, 4), (2, 8, 6, 9), (2, 8, 6, 0), (3, 9, 0, 0)):
        fields: Fields = [("op", "seal"), ("mode", mode), ("cipher", cipher), ("key", key_of(cipher)), ("q", 100)]
        fields += [*zip(("code", "width", "n", "t"), values), ("param", s.param), ("nonce", counting(6)), ("label", b"A1")]
        fields += [("text", b"123"), ("out", 3), ("work", 63), ("tagpart", 4)]
        group.tests.append(Chosen(f"set {values}, work memory of 63 bytes", ("SetRule",), "modecall", fields))
    return group
