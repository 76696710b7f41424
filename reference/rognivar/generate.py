"""Cases from a seed: the inputs of lines, chosen near every border that the rules have, with several causes of refusal at once."""

from __future__ import annotations

from collections.abc import Callable, Iterator

from . import tube
from .choices import Choices, Fields, line, make, set_of
from .ciphers import FUNCTIONS, NO_END
from .ends import Sending, last_number
from .malformed import malformed
from .modes import CONTENTS_LIMIT, LABEL_LIMIT, MODES, WORK
from .refusals import Refusal
from .sessions import session
from .sets import ROWS


def cipher(choose: Choices) -> Fields:
    name = choose.of(*FUNCTIONS)
    width, key_length, _ = FUNCTIONS[name]
    key = choose.one_bit(key_length) if choose.rare(8) else choose.key(name)
    block = choose.one_bit(width) if choose.rare(8) else choose.byte_string(width)
    return [("name", name), ("key", key), ("pt", block)]


def setrule(choose: Choices) -> Fields:
    code = choose.of(0, 3, 4, 254, 255) if choose.rare(8) else choose.of(1, 2)
    width = choose.of(0, 1, 2, 7, 9, 15, 17, 255) if choose.rare(8) else choose.of(8, 16)
    n = choose.of(0, width - 1, width, 255) if choose.rare(4) else choose.of(choose.random.randint(1, 16), 1, width - 3, width - 2)
    t = choose.of(0, width + 1, 255) if choose.rare(4) else choose.of(choose.random.randint(1, 16), 1, width - 1, width)
    n, t = min(max(n, 0), 255), min(max(t, 0), 255)
    return [("code", code), ("width", width), ("n", n), ("t", t), ("param", choose.random.randrange(256))]


def lookup(choose: Choices) -> Fields:
    if choose.rare(2):
        (code, name, n), (_, tags) = choose.of(*ROWS.items())
        t = choose.of(*tags)
        code = choose.of(1, 2) if choose.rare(6) else code
        n = choose.near(n, 4, 6, 8, 12, 14) if choose.rare(6) else n
        t = choose.near(t, 4, 6, 8, 12, 16) if choose.rare(6) else t
    else:
        code, name = choose.of(0, 1, 1, 1, 2, 2, 2, 3, 255), choose.of(*FUNCTIONS, "CHAM-128/128", "aes-128", "AES-12", "AES-1288", "")
        n, t = choose.random.randrange(18), choose.random.randrange(18)
    return [("code", code), ("cipher", name), ("n", n), ("t", t)]


def mode(choose: Choices) -> Fields:
    name, cipher_name, key = choose.mode()
    s = choose.parameter_set(MODES[name].code, cipher_name)
    n = choose.near(s.n, 16, 17) if choose.rare(50) else s.n
    a, m = choose.length(s.width), choose.length(s.width)
    if choose.rare(200):
        a = choose.of(LABEL_LIMIT - 1, LABEL_LIMIT, LABEL_LIMIT + 1)
    fields: Fields = [("mode", name), ("cipher", cipher_name), ("key", key)]
    fields += choose.set_fields(s, broken=80, other=80)
    return fields + [("nonce", choose.byte_string(n)), ("label", choose.byte_string(a)), ("contents", choose.byte_string(m))]


def tube_(choose: Choices) -> Fields:
    n, t = choose.random.randint(1, 16), choose.random.randint(1, 16)
    a, m = choose.length(8), choose.length(8)
    if choose.rare(100):
        a = choose.of(LABEL_LIMIT - 1, LABEL_LIMIT, LABEL_LIMIT + 1)
    if choose.rare(4000):
        m = choose.of(CONTENTS_LIMIT - 1, CONTENTS_LIMIT, CONTENTS_LIMIT + 1)
    if choose.rare(20):
        n, t = choose.of((0, t), (17, t), (n, 0), (n, 17))
    wire = tube.write(*choose.byte_string(2), choose.byte_string(n), choose.byte_string(a), choose.byte_string(m), choose.byte_string(t))
    return [("wire", wire if choose.rare(3) else malformed(choose, wire))]


def modecall(choose: Choices) -> Fields:
    name, cipher_name, key = choose.mode()
    s = choose.parameter_set(MODES[name].code, cipher_name)
    op = choose.of("seal", "open")
    a = choose.of(LABEL_LIMIT, LABEL_LIMIT + 1) if choose.rare(60) else choose.length(s.width)
    label, nonce = choose.byte_string(a), choose.byte_string(s.n)
    zeros = choose.rare(30)
    m = choose.of(CONTENTS_LIMIT, CONTENTS_LIMIT + 1, CONTENTS_LIMIT + 1) if zeros and choose.rare(4) else choose.length(s.width)
    text = bytes(m) if zeros else choose.byte_string(m)
    made = make(name, cipher_name, key)
    tag = choose.byte_string(s.t)
    within = a <= LABEL_LIMIT and m <= CONTENTS_LIMIT
    if op == "open" and within and m < CONTENTS_LIMIT:
        if zeros:  # zeros are a ciphertext like any other
            tag = made.prf(made.hash(s.param, nonce, label), text, s.t)
        else:
            text, tag, _ = made.seal(s, nonce, label, text, m, s.t, WORK)
    counts = [made.count(op, a, m), made.count("refused", a, m)] if within else [10]
    # nearly all calls at the limit are refused before their runs: a million bytes take seconds here
    quota = counts[0] - 1 if m == CONTENTS_LIMIT and not choose.rare(12) else choose.quota(*counts)
    tag, label, nonce, text = _altered(choose, op, zeros, tag, label, nonce, text)
    fields: Fields = [("op", op), ("mode", name), ("cipher", cipher_name), ("key", key), ("q", quota)]
    fields += choose.set_fields(s, broken=40, other=25)
    fields += [("nonce", nonce), ("label", label), ("zeros", m) if zeros else ("text", text)]
    m = len(text)
    fields += [("out", choose.near(m, m + 7) if choose.rare(12) else m), ("work", choose.work(15))]
    if op == "open":
        return fields + [("tag", tag[:-1] if choose.rare(50) else tag + b"\0" if choose.rare(50) else tag)]
    return fields + [("tagpart", choose.near(s.t, 16) if choose.rare(12) else s.t)]


def _altered(choose: Choices, op: str, zeros: bool, tag: bytes, label: bytes, nonce: bytes, text: bytes) -> tuple[bytes, ...]:
    """What an opening is given: as it was sealed, or with the tag, the label, the nonce or the ciphertext changed."""
    if op == "open" and choose.rare(3):
        part = choose.random.randrange(4)
        tag = choose.damaged(tag) if part == 0 else tag
        label = choose.of(choose.damaged(label), label + b"\0", label[:-1], label + b"\x80") if part == 1 else label
        nonce = choose.damaged(nonce) if part == 2 else nonce
        text = choose.of(choose.damaged(text), text + b"\0", text[:-1]) if part == 3 and not zeros else text
    if choose.rare(20):
        nonce = choose.of(nonce + b"\0", nonce[:-1], b"", nonce + choose.byte_string(4))
    return tag, label, nonce, text


def send(choose: Choices) -> Fields:
    name, cipher_name, key = choose.mode()
    s = choose.parameter_set(MODES[name].code, cipher_name)
    last = last_number(s.n)
    start = choose.of(1, 2, choose.random.randint(1, last), last, last, last - 1, last - 2)
    if choose.rare(15):
        start = choose.of(0, last + 1, NO_END)
    set_fields = choose.set_fields(s, broken=40, other=20)
    made = make(name, cipher_name, key)
    steps, counts = [], []
    for i in range(choose.random.randrange(7)):
        a = choose.of(LABEL_LIMIT, LABEL_LIMIT + 1) if choose.rare(150) else choose.length(s.width)
        m = choose.of(CONTENTS_LIMIT, CONTENTS_LIMIT + 1, CONTENTS_LIMIT + 1) if choose.rare(6000) else choose.length(s.width)
        wanted = tube.length(s.n, s.t, a, m)
        counts.append(made.count("seal", min(a, LABEL_LIMIT), min(m, CONTENTS_LIMIT)))
        out = choose.near(wanted, wanted - 1) if choose.rare(8) else wanted + choose.of(0, 0, 1, 9, 40)
        steps += [(f"op.{i}", "send"), (f"label.{i}", choose.byte_string(a)), (f"contents.{i}", choose.byte_string(m))]
        steps += [(f"out.{i}", out), (f"work.{i}", choose.work(15))]
    sums = [sum(counts[:i]) for i in range(1, len(counts) + 1)]
    fields: Fields = [("mode", name), ("cipher", cipher_name), ("key", key), ("q", choose.quota(*sums))]
    fields += set_fields + [("start", start), ("steps", len(counts))]  # an end that is refused makes no step
    try:
        Sending(set_of(set_fields), start)
    except Refusal:
        return fields
    return fields + steps


KINDS: dict[str, Callable[[Choices], Fields]] = {
    "cipher": cipher,
    "mode": mode,
    "lookup": lookup,
    "setrule": setrule,
    "tube": tube_,
    "modecall": modecall,
    "send": send,
    "session": session,
}


def unreadable(choose: Choices, case: int) -> str:
    """A line of any kind with one or two fields left out, doubled, moved or spoilt. Some are still readable."""
    kind = choose.of(*KINDS)
    fields = line(kind, case, KINDS[kind](choose)).split(" ")
    for _ in range(choose.of(1, 1, 2)):
        i, j = choose.random.randrange(len(fields)), choose.random.randrange(len(fields))
        name, _, value = fields[i].partition("=")
        spoilt = choose.of("", "0", "x", value + "0", value[:-1], value + "g", "-1", "ffffffffffffffff", "10000000000000000")
        form = choose.random.randrange(6)
        if form == 0 and len(fields) > 1:
            del fields[i]
        elif form == 1:
            fields[i], fields[j] = fields[j], fields[i]
        elif form == 2:
            fields.insert(j, choose.of(fields[i], "", "x", "=", "res=ok"))
        elif form == 3:
            fields[i] = choose.of(name, name + value, f"{name}x={value}", f" {name}={value}")
        elif name != "steps":
            fields[i] = f"{name}={spoilt}"
    return " ".join(fields)


def inputs(kind: str, seed: int, count: int) -> Iterator[str]:
    """Lines with the inputs of cases alone. Case i of a seed is the same whatever the count."""
    for i in range(count):
        choose = Choices(f"{kind} {seed} {i}")
        yield unreadable(choose, i) if kind == "unreadable" else line(kind, i, KINDS[kind](choose))
