"""The sending and the receiving end (docs/ends.md). Output parts and work memory are given by their lengths."""

from __future__ import annotations

from dataclasses import dataclass

from . import tube
from .ledger import Ledger
from .modes import Mode
from .refusals import Refusal
from .sets import ParameterSet


def last_number(n: int) -> int:
    """L, the last number of a set with a nonce of n bytes."""
    return 2 ** (8 * min(n, 6)) - 1


@dataclass(frozen=True)
class Sent:
    wire: bytes
    count: int


@dataclass(frozen=True)
class Opened:
    number: int
    label_place: int
    label_length: int
    contents: bytes
    count: int


class Sending:
    """A sending end. A refused send uses up no number."""

    def __init__(self, s: ParameterSet, start: int) -> None:
        self.last = last_number(s.n)
        if not 1 <= start <= self.last:
            raise Refusal(5, start)
        self.set = s
        self.next = start

    def send(self, mode: Mode, label: bytes, contents: bytes, out: int, work: int) -> Sent:
        try:
            mode.check_work(self.set, work)
            mode.count("seal", len(label), len(contents))
        except Refusal as fault:
            raise fault.within("end") from None
        if self.next > self.last:
            raise Refusal(13, self.last)
        s = self.set
        wanted = tube.length(s.n, s.t, len(label), len(contents))
        if out < wanted:
            raise Refusal(10, wanted).within("end")
        nonce = self.next.to_bytes(s.n, "big")
        try:
            ciphertext, tag, count = mode.seal(s, nonce, label, contents, len(contents), s.t, work)
        except Refusal as fault:
            raise fault.within("end") from None
        self.next += 1
        return Sent(tube.write(s.code, s.param, nonce, label, ciphertext, tag), count)


class Receiving:
    """A receiving end: listening, or holding the number of the tube opened last."""

    def __init__(self, s: ParameterSet, floor: int) -> None:
        self.last = last_number(s.n)
        if floor > self.last:
            raise Refusal(5, floor)
        self.set = s
        self.ledger = Ledger(floor)
        self.held: int | None = None

    def open(self, mode: Mode, wire: bytes, out: int, work: int) -> Opened:
        assert self.held is None
        try:
            mode.check_work(self.set, work)
            read = tube.read(wire)
        except Refusal as fault:
            raise fault.within("end") from None
        self._check_set(read)
        self._check_number(read.number)
        if out < len(read.contents):
            raise Refusal(10, len(read.contents)).within("end")
        try:
            contents, count = mode.open(self.set, read.nonce, read.label, read.contents, read.tag, len(read.contents), work)
        except Refusal as fault:
            raise fault.within("end") from None
        self.held = read.number
        return Opened(read.number, read.places[2], len(read.label), contents, count)

    def _check_set(self, read: tube.Tube) -> None:
        s = self.set
        if (read.code, read.param) != (s.code, s.param):
            raise Refusal(15, 1)
        if len(read.nonce) != s.n:
            raise Refusal(15, 2)
        if len(read.tag) != s.t:
            raise Refusal(15, 5)

    def _check_number(self, number: int) -> None:
        if not 1 <= number <= self.last:
            raise Refusal(16)
        if self.ledger.is_old(number):
            raise Refusal(17, number, self.ledger.high)
        if self.ledger.is_signed(number):
            raise Refusal(18, number)

    def sign(self) -> None:
        assert self.held is not None
        self.ledger.sign(self.held)
        self.held = None

    def give_back(self) -> None:
        assert self.held is not None
        self.held = None
