"""Cases as lines of text: reading the inputs of a line, and writing the line with everything that comes out (docs/cases.md)."""

from __future__ import annotations

import re
from collections.abc import Callable, Iterable

from . import tube
from .ciphers import FUNCTIONS, NO_END, Cipher, Meter
from .ends import Receiving, Sending
from .ledger import WINDOW
from .modes import MODES, Mode
from .refusals import Refusal
from .sets import ParameterSet, lookup

PART_LIMIT = 2**28
NUMBER = re.compile(r"[0-9a-fA-F]{1,16}")
BYTES = re.compile(r"(?:[0-9a-fA-F]{2})*")


class Unreadable(Exception):
    """A line that can't be read, with the name of the first field that can't."""

    def __init__(self, field: str) -> None:
        super().__init__(field)
        self.field = field


class Case:
    """A line: its fields are read from left to right, and the line with its results is written beside it."""

    def __init__(self, line: str) -> None:
        self._fields = [field.partition("=") for field in line.split(" ")]
        self._next = 0
        self._written: list[str] = []

    # -- reading: each input is looked for behind the last one, so that results on the line are passed over

    def text(self, name: str) -> str:
        for i in range(self._next, len(self._fields)):
            found, equals, value = self._fields[i]
            if found == name and equals:
                self._next = i + 1
                self._written.append(f"{name}={value}")
                return value
        raise Unreadable(name)

    def has(self, name: str) -> bool:
        """Whether the next field has this name."""
        return self._next < len(self._fields) and self._fields[self._next][:2] == (name, "=")

    def choice(self, name: str, among: Iterable[str]) -> str:
        value = self.text(name)
        if value not in among:
            raise Unreadable(name)
        return value

    def number(self, name: str, limit: int = NO_END) -> int:
        value = self.text(name)
        if not NUMBER.fullmatch(value) or int(value, 16) > limit:
            raise Unreadable(name)
        return int(value, 16)

    def byte_string(self, name: str, length: int | None = None) -> bytes:
        value = self.text(name)
        if not BYTES.fullmatch(value) or length not in (None, len(value) // 2):
            raise Unreadable(name)
        return bytes.fromhex(value)

    # -- writing

    def write(self, name: str, value: str | int | bytes) -> None:
        if isinstance(value, bytes):
            value = value.hex()
        elif isinstance(value, int):
            value = f"{value:x}"
        self._written.append(f"{name}={value}")

    def refuse(self, fault: Refusal, step: str = "") -> None:
        self.write(f"res{step}", str(fault.number))
        self.write(f"vals{step}", ",".join(f"{value:x}" for value in fault.values))
        self.write(f"layers{step}", ">".join(fault.layers))

    def line(self) -> str:
        return " ".join(self._written)


def _cipher(case: Case, field: str) -> Cipher:
    cipher = Cipher(case.choice(field, FUNCTIONS))
    cipher.set_key(case.byte_string("key", cipher.key_length))
    return cipher


def _mode(case: Case, metered: bool = True) -> Mode:
    make = MODES[case.choice("mode", MODES)]
    cipher = _cipher(case, "cipher")
    return make(Meter(cipher, case.number("q")) if metered else cipher)


SetFields = tuple[int, int, int, int, int]


def _set_fields(case: Case) -> SetFields:
    code, width, n, t, param = (case.number(name, 255) for name in ("code", "width", "n", "t", "param"))
    return code, width, n, t, param


# ---- the kinds


def cipher(case: Case) -> None:
    made = _cipher(case, "name")
    case.write("ct", made.run(case.byte_string("pt", made.width)))


def setrule(case: Case) -> None:
    fields = _set_fields(case)
    try:
        ParameterSet(*fields)
    except Refusal as fault:
        case.refuse(fault)
    else:
        case.write("res", "ok")


def lookup_(case: Case) -> None:
    code = case.number("code", 255)
    name = case.text("cipher")
    found = lookup(code, name, case.number("n", 255), case.number("t", 255))
    if found is None:
        case.write("res", "none")
    else:
        case.write("res", "ok")
        case.write("width", found.width)
        case.write("param", found.param)


def tube_(case: Case) -> None:
    wire = case.byte_string("wire")
    try:
        read = tube.read(wire)
    except Refusal as fault:
        case.refuse(fault)
        return
    case.write("res", "ok")
    case.write("code", read.code)
    case.write("param", read.param)
    for name, text in zip(("number", "label", "contents", "tag"), read.sections[1:]):
        case.write(name, text)
    for i, place in enumerate(read.places, start=1):
        case.write(f"p{i}", place)


def mode(case: Case) -> None:
    made = _mode(case, metered=False)
    fields = _set_fields(case)
    nonce, label, contents = case.byte_string("nonce"), case.byte_string("label"), case.byte_string("contents")
    try:
        s = ParameterSet(*fields)
        ciphertext, tag, count = made.seal(s, nonce, label, contents, len(contents), s.t, 64)
    except Refusal as fault:
        case.refuse(fault)
        return
    opened, opening = made.open(s, nonce, label, ciphertext, tag, len(contents), 64)
    assert opened == contents
    case.write("ciphertext", ciphertext)
    case.write("tag", tag)
    case.write("seal", count)
    case.write("open", opening)
    case.write("refused", made.count("refused", len(label), len(contents)))


def modecall(case: Case) -> None:
    op = case.choice("op", ("seal", "open"))
    made = _mode(case)
    fields = _set_fields(case)
    nonce, label = case.byte_string("nonce"), case.byte_string("label")
    text = bytes(case.number("zeros", PART_LIMIT)) if case.has("zeros") else case.byte_string("text")
    out, work = case.number("out", PART_LIMIT), case.number("work", PART_LIMIT)
    tag: int | bytes = case.number("tagpart", PART_LIMIT) if op == "seal" else case.byte_string("tag")
    try:
        s = ParameterSet(*fields)
        if isinstance(tag, int):
            ciphertext, made_tag, count = made.seal(s, nonce, label, text, out, tag, work)
            results = (("ciphertext", ciphertext), ("tag", made_tag))
        else:
            contents, count = made.open(s, nonce, label, text, tag, out, work)
            results = (("contents", contents),)
    except Refusal as fault:
        case.refuse(fault)
    else:
        case.write("res", "ok")
        case.write("count", count)
        for name, value in results:
            case.write(name, value)
    case.write("left", made.left)


def send(case: Case) -> None:
    made = _mode(case)
    fields = _set_fields(case)
    start, steps = case.number("start"), case.number("steps")
    try:
        end = Sending(ParameterSet(*fields), start)
    except Refusal as fault:
        case.refuse(fault)
        return
    case.write("res", "ok")
    for i in range(steps):
        case.choice(f"op.{i}", ("send",))
        label, contents = case.byte_string(f"label.{i}"), case.byte_string(f"contents.{i}")
        out, work = case.number(f"out.{i}", PART_LIMIT), case.number(f"work.{i}", PART_LIMIT)
        try:
            sent = end.send(made, label, contents, out, work)
        except Refusal as fault:
            case.refuse(fault, f".{i}")
        else:
            case.write(f"res.{i}", "ok")
            case.write(f"length.{i}", len(sent.wire))
            case.write(f"count.{i}", sent.count)
            case.write(f"wire.{i}", sent.wire)
        case.write(f"left.{i}", made.left)


def session(case: Case) -> None:
    made = _mode(case)
    fields = _set_fields(case)
    if case.number("window") != WINDOW:
        raise Unreadable("window")
    floor = case.number("floor")
    try:
        end = Receiving(ParameterSet(*fields), floor)
    except Refusal as fault:
        case.number("steps")
        case.refuse(fault)
        return
    case.write("res", "ok")
    for i in range(case.number("steps")):
        if end.held is None:
            case.choice(f"op.{i}", ("open",))
            _open(case, i, end, made)
        else:
            signing = case.choice(f"op.{i}", ("sign", "return")) == "sign"
            end.sign() if signing else end.give_back()
            case.write(f"h.{i}", end.ledger.high)
            case.write(f"marks.{i}", end.ledger.marks)
        case.write(f"left.{i}", made.left)


def _open(case: Case, i: int, end: Receiving, made: Mode) -> None:
    wire = case.byte_string(f"tube.{i}")
    out, work = case.number(f"out.{i}", PART_LIMIT), case.number(f"work.{i}", PART_LIMIT)
    try:
        opened = end.open(made, wire, out, work)
    except Refusal as fault:
        case.refuse(fault, f".{i}")
        return
    case.write(f"res.{i}", "ok")
    case.write(f"number.{i}", opened.number)
    case.write(f"place.{i}", opened.label_place)
    case.write(f"label.{i}", opened.label_length)
    case.write(f"length.{i}", len(opened.contents))
    case.write(f"count.{i}", opened.count)
    case.write(f"contents.{i}", opened.contents)


KINDS: dict[str, Callable[[Case], None]] = {
    "cipher": cipher,
    "mode": mode,
    "lookup": lookup_,
    "setrule": setrule,
    "tube": tube_,
    "modecall": modecall,
    "send": send,
    "session": session,
}


def answer(line: bytes) -> bytes:
    """The line with its results, or as it came with the field that can't be read."""
    try:
        case = Case(line.decode())
        run = KINDS[case.choice("kind", KINDS)]
        if case.has("case"):
            case.text("case")
        run(case)
    except UnicodeDecodeError:
        return line + b" bad=kind"
    except Unreadable as fault:
        return line + f" bad={fault.field}".encode()
    return case.line().encode()
