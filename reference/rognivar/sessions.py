"""Sessions of a receiving end from a seed."""

from __future__ import annotations

from . import tube
from .choices import Choices, Fields, make, set_of
from .ciphers import NO_END
from .ends import Receiving, last_number
from .malformed import malformed
from .modes import LABEL_LIMIT, MODES, WORK, Mode
from .refusals import Refusal
from .sets import ParameterSet

PLENTY = 2**63


class Link:
    """A link under test: what a session's tubes are made of."""

    def __init__(self, choose: Choices, s: ParameterSet, mode: Mode) -> None:
        self.choose, self.set, self.mode = choose, s, mode
        self.last = last_number(s.n)
        self.known: list[tuple[bytes, int]] = []

    def number(self, end: Receiving) -> int:
        """A number at one of the ledger's borders: next, signed, at and beside the window's edge, at the limit, or anywhere."""
        choose, high, floor = self.choose, end.ledger.high, end.ledger.floor
        above = (high + 1, high + 1, high + 2, high + 63, high + 64, high + 65, high + choose.random.randint(1, 200))
        window = (high, high - 1, high - 62, high - 63, high - 64, high - 65, high - choose.random.randint(0, 70))
        border = (0, 1, floor, floor + 1, floor - 1, self.last, self.last - 1, self.last + 1, choose.random.randint(1, self.last))
        signed = tuple(end.ledger.signatures) or (high,)
        group = choose.of(above, above, above, above, window, window, signed, border)
        return min(max(0, choose.of(*group)), 256**self.set.n - 1)

    def tube(self, end: Receiving) -> tuple[bytes, int]:
        """A tube and the length of its contents: a true one, a true one again, or one with a fault."""
        choose = self.choose
        if self.known and choose.rare(8):
            return choose.of(*self.known)
        s = self.set
        nonce = self.number(end).to_bytes(s.n, "big")
        label = choose.byte_string(LABEL_LIMIT if choose.rare(800) else choose.length(s.width))
        contents = choose.byte_string(choose.length(s.width))
        ciphertext, tag, _ = self.mode.seal(s, nonce, label, contents, len(contents), s.t, WORK)
        fault = choose.random.randrange(28)
        if fault == 0:
            tag = choose.damaged(tag)
        elif fault == 1:
            label = choose.of(choose.damaged(label), label + b"\0", label[:-1])
        elif fault == 2:
            ciphertext = choose.of(choose.damaged(ciphertext), ciphertext + b"\0", ciphertext[:-1])
        elif fault == 3:
            nonce = self.number(end).to_bytes(s.n, "big")
        code, param, nonce, tag = self._of_another_set(nonce, tag) if choose.rare(10) else (s.code, s.param, nonce, tag)
        wire = tube.write(code, param, nonce, label, ciphertext, tag)
        self.known.append((wire, len(ciphertext)))
        if choose.rare(12):
            wire = malformed(choose, wire)
        return wire, len(ciphertext)

    def _of_another_set(self, nonce: bytes, tag: bytes) -> tuple[int, int, bytes, bytes]:
        """Code, param, nonce and tag, one or more of them not the set's."""
        choose, s = self.choose, self.set
        code, param = s.code, s.param
        for _ in range(choose.of(1, 1, 2, 3)):
            field = choose.random.randrange(4)
            code = choose.of(3 - code if code < 3 else 1, 0, 255) if field == 0 else code
            param = choose.random.randrange(256) if field == 1 else param
            nonce = choose.of(nonce[1:] or b"\1\2", b"\0" + nonce)[:16] if field == 2 else nonce
            tag = choose.of(tag[:-1] or b"\1\2", tag + b"\0")[:16] if field == 3 else tag
        return code, param, nonce, tag


def session(choose: Choices) -> Fields:
    name, cipher_name, key = choose.mode()
    s = choose.parameter_set(MODES[name].code, cipher_name)
    last = last_number(s.n)
    floors = (0, 0, 0, 0, 1, 62, 63, 64, 65, last - 1, last - 63, last - 64, choose.random.randint(0, last), choose.of(last, last - 2))
    floor = choose.of(last + 1, NO_END) if choose.rare(40) else choose.of(*floors)
    set_fields = choose.set_fields(s, broken=60, other=25)
    steps = choose.random.randrange(120 if choose.rare(25) else 24)
    quota, calls = NO_END, []
    try:
        end = Receiving(set_of(set_fields), floor)
    except Refusal:
        steps = 0
    else:
        link = Link(choose, s, make(name, cipher_name, key))
        quota, calls = _calls(choose, steps, end, link, make(name, cipher_name, key, PLENTY))
    fields: Fields = [("mode", name), ("cipher", cipher_name), ("key", key), ("q", quota)]
    return fields + set_fields + [("window", 64), ("floor", floor), ("steps", steps)] + calls


def _calls(choose: Choices, steps: int, end: Receiving, link: Link, own_mode: Mode) -> tuple[int, Fields]:
    """The calls of a session, made of an end beside it, and a quota: no end, or what is spent before some open and then about what it needs."""
    quota, calls = NO_END, []
    tight = choose.random.randrange(16) if choose.rare(2) else steps
    for i in range(steps):
        if end.held is not None:
            calls += _settle_step(choose, i, end)
            continue
        wire, m = link.tube(end)
        if i >= tight and quota == NO_END:
            spent, own_mode.cipher.quota = PLENTY - own_mode.left, choose.quota_of(own_mode, wire)
            quota = spent + own_mode.left
        calls += _open_step(choose, i, end, wire, m, own_mode)
    return quota, calls


def _open_step(choose: Choices, i: int, end: Receiving, wire: bytes, m: int, own_mode: Mode) -> Fields:
    out = choose.near(m, m - 1) if choose.rare(15) else m + choose.of(0, 0, 1, 5)
    work = choose.work(25)
    try:
        end.open(own_mode, wire, out, work)
    except Refusal:
        pass
    return [(f"op.{i}", "open"), (f"tube.{i}", wire), (f"out.{i}", out), (f"work.{i}", work)]


def _settle_step(choose: Choices, i: int, end: Receiving) -> Fields:
    if choose.rare(4):
        end.give_back()
        return [(f"op.{i}", "return")]
    end.sign()
    return [(f"op.{i}", "sign")]
