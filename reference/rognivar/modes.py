"""CLOC and SILC, version 3, over any cipher (docs/modes.md). Blocks are big-endian integers of b bytes."""

from __future__ import annotations

from .ciphers import NO_END, Cipher, Meter
from .refusals import Refusal
from .sets import CLOC, SILC, ParameterSet

LABEL_LIMIT = 4096
CONTENTS_LIMIT = 1048576
WORK = 64


def _blocks(text: bytes, b: int) -> list[bytes]:
    return [text[i : i + b] for i in range(0, len(text), b)]


def _number(block: bytes) -> int:
    return int.from_bytes(block, "big")


def ozp(x: bytes, b: int) -> int:
    return _number(x if len(x) == b else x + b"\x80" + bytes(b - 1 - len(x)))


def zap(x: bytes, b: int) -> int:
    return _number(x + bytes(b - len(x)))


def zpp(x: bytes, b: int) -> int:
    return _number(bytes(b - len(x)) + x)


def _words(x: int, b: int) -> tuple[int, int, int, int]:
    size = 2 * b
    mask = (1 << size) - 1
    return x >> 3 * size, x >> 2 * size & mask, x >> size & mask, x & mask


def _join(words: tuple[int, int, int, int], b: int) -> int:
    w1, w2, w3, w4 = words
    size = 2 * b
    return ((w1 << size | w2) << size | w3) << size | w4


def f1(x: int, b: int) -> int:
    w1, w2, w3, w4 = _words(x, b)
    return _join((w1 ^ w3, w2 ^ w4, w1 ^ w2 ^ w3, w2 ^ w3 ^ w4), b)


def f2(x: int, b: int) -> int:
    w1, w2, w3, w4 = _words(x, b)
    return _join((w2, w3, w4, w1 ^ w2), b)


g2 = f2


def g1(x: int, b: int) -> int:
    w1, w2, w3, w4 = _words(x, b)
    return _join((w3, w4, w1 ^ w2, w2 ^ w3), b)


def h(x: int, b: int) -> int:
    w1, w2, w3, w4 = _words(x, b)
    return _join((w1 ^ w2, w2 ^ w3, w3 ^ w4, w1 ^ w2 ^ w4), b)


def g(x: int, b: int) -> int:
    """SILC's tweak: the first byte goes, and the exclusive or of the first two comes at the end."""
    s = x.to_bytes(b, "big")
    return _number(s[1:] + bytes((s[0] ^ s[1],)))


class Mode:
    """A mode over a cipher. The subclasses have HASH and PRF; ENC, DEC, the calls and their checks are common."""

    code: int
    fixed_runs: int
    least_label_blocks: int

    def __init__(self, cipher: Cipher | Meter) -> None:
        self.cipher = cipher
        self.b = cipher.width
        self.first_bit = 1 << 8 * self.b - 1

    @property
    def left(self) -> int:
        return self.cipher.left

    def hash(self, param: int, nonce: bytes, label: bytes) -> int:
        raise NotImplementedError

    def prf(self, v: int, ciphertext: bytes, t: int) -> bytes:
        raise NotImplementedError

    def _stream(self, v: int, text: bytes, decrypting: bool) -> bytes:
        """ENC and DEC: text + stream. The next stream block comes from the block of ciphertext, with its first bit set."""
        b = self.b
        result = bytearray()
        blocks = _blocks(text, b)
        following = v
        for block in blocks:
            s = self.cipher.encrypt(following)
            turned = (s >> 8 * (b - len(block)) ^ _number(block)).to_bytes(len(block), "big")
            result += turned
            following = zap(block if decrypting else turned, b) | self.first_bit
        return bytes(result)

    # -- the calls

    def count(self, which: str, a: int, m: int) -> int:
        """The runs of a call by its lengths: which is "seal", "open" or "refused"."""
        self._limits(a, m)
        label_blocks = max(self.least_label_blocks, -(-a // self.b))
        blocks = -(-m // self.b)
        return label_blocks + self.fixed_runs + (blocks if which == "refused" else 2 * blocks)

    def seal(
        self, s: ParameterSet, nonce: bytes, label: bytes, contents: bytes, out: int, tagpart: int, work: int
    ) -> tuple[bytes, bytes, int]:
        """Ciphertext, tag and count. The parts lent to the call are given by their lengths."""
        count = self._check("seal", s, nonce, label, contents, out, tagpart, work)
        return *self._sealed(s, nonce, label, contents, count), count

    def open(
        self, s: ParameterSet, nonce: bytes, label: bytes, ciphertext: bytes, tag: bytes, out: int, work: int
    ) -> tuple[bytes, int]:
        """Contents and count."""
        count = self._check("open", s, nonce, label, ciphertext, out, len(tag), work)
        return self._opened(s, nonce, label, ciphertext, tag, count), count

    def _limits(self, a: int, m: int) -> None:
        if a > LABEL_LIMIT or m > CONTENTS_LIMIT:
            raise Refusal(9, a, m)

    def check_work(self, s: ParameterSet, work: int) -> None:
        """The two checks with which every call begins."""
        if work != WORK:
            raise Refusal(6, work)
        if (s.code, s.width) != (self.code, self.b):
            raise Refusal(7, self.code, self.b)

    def check_left(self, which: str, a: int, m: int) -> int:
        count = self.count(which, a, m)
        if count > self.left:
            raise Refusal(11, count, self.left)
        return count

    def _check(self, which: str, s: ParameterSet, nonce: bytes, label: bytes, text: bytes, out: int, tag: int, work: int) -> int:
        self.check_work(s, work)
        if len(nonce) != s.n:
            raise Refusal(8, len(nonce))
        self._limits(len(label), len(text))
        if out != len(text):
            raise Refusal(10, len(text))
        if tag != s.t:
            raise Refusal(10, s.t)
        return self.check_left(which, len(label), len(text))

    def _sealed(self, s: ParameterSet, nonce: bytes, label: bytes, contents: bytes, count: int) -> tuple[bytes, bytes]:
        before = self.left
        v = self.hash(s.param, nonce, label)
        ciphertext = self._stream(v, contents, decrypting=False)
        tag = self.prf(v, ciphertext, s.t)
        self._counted(before, count)
        return ciphertext, tag

    def _opened(self, s: ParameterSet, nonce: bytes, label: bytes, ciphertext: bytes, tag: bytes, count: int) -> bytes:
        before = self.left
        v = self.hash(s.param, nonce, label)
        if tag != self.prf(v, ciphertext, s.t):
            cost = self.count("refused", len(label), len(ciphertext))
            self._counted(before, cost)
            raise Refusal(12, cost)
        contents = self._stream(v, ciphertext, decrypting=True)
        self._counted(before, count)
        return contents

    def _counted(self, before: int, count: int) -> None:
        """The runs made are those that the call answers: a fault of this implementation, and no refusal, if not."""
        assert before == NO_END or before - self.left == count


class Cloc(Mode):
    code = CLOC
    fixed_runs = 1
    least_label_blocks = 1

    def hash(self, param: int, nonce: bytes, label: bytes) -> int:
        b, encrypt = self.b, self.cipher.encrypt
        blocks = _blocks(label, b) or [b""]
        first = ozp(blocks[0], b)
        s = encrypt(first & ~self.first_bit)
        if first & self.first_bit:
            s = h(s, b)
        for block in blocks[1:]:
            s = encrypt(s ^ ozp(block, b))
        full = len(blocks[-1]) == b
        return (f1 if full else f2)(s ^ ozp(bytes((param,)) + nonce, b), b)

    def prf(self, v: int, ciphertext: bytes, t: int) -> bytes:
        b, encrypt = self.b, self.cipher.encrypt
        if not ciphertext:
            return encrypt(g1(v, b)).to_bytes(b, "big")[:t]
        *before, last = _blocks(ciphertext, b)
        s = encrypt(g2(v, b))
        for block in before:
            s = encrypt(s ^ _number(block))
        full = len(last) == b
        return encrypt((f1 if full else f2)(s ^ ozp(last, b), b)).to_bytes(b, "big")[:t]


class Silc(Mode):
    code = SILC
    fixed_runs = 3
    least_label_blocks = 0

    def hash(self, param: int, nonce: bytes, label: bytes) -> int:
        b, encrypt = self.b, self.cipher.encrypt
        s = encrypt(zpp(bytes((param,)) + nonce, b))
        for block in _blocks(label, b):
            s = encrypt(s ^ zap(block, b))
        return g(s ^ len(label), b)

    def prf(self, v: int, ciphertext: bytes, t: int) -> bytes:
        b, encrypt = self.b, self.cipher.encrypt
        s = encrypt(g(v, b))
        for block in _blocks(ciphertext, b):
            s = encrypt(s ^ zap(block, b))
        return encrypt(g(s ^ len(ciphertext), b)).to_bytes(b, "big")[:t]


MODES: dict[str, type[Mode]] = {"CLOC": Cloc, "SILC": Silc}
