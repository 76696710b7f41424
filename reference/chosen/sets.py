"""Vectors of parameter sets: the rule, and the submission's tables."""

from collections.abc import Iterator

from rognivar.ciphers import FUNCTIONS
from rognivar.sets import ROWS

from .group import Chosen, Group

NAME = "set"
FLAGS = {
    "Rule": "one field at or beside a border of its rule",
    "FirstWrong": "several fields are wrong: the first is named",
    "Row": "a row of the submission's tables",
    "NoRow": "lengths, a code or a name for which there is no row",
}


def groups() -> Iterator[Group]:
    rule = Group("SetRuleTest", {})
    for fields in _fields():
        rule.tests.append(_rule(*fields, flag="Rule"))
    for fields in ((0, 0, 0, 0), (3, 8, 6, 4), (0, 8, 6, 4), (1, 0, 6, 4), (1, 9, 0, 0), (1, 8, 0, 0), (2, 16, 15, 17), (255, 255, 255, 255)):
        rule.tests.append(_rule(*fields, flag="FirstWrong"))
    yield rule
    lookup = Group("SetLookupTest", {})
    for (code, cipher, n), (_, tags) in ROWS.items():
        lookup.tests += [_lookup("Row", code, cipher, n, t) for t in tags]
    for code, cipher, n, t in (
        *((2, "PRESENT-80", 6, 5), (1, "PRESENT-80", 6, 4), (1, "LED-80", 6, 4), (2, "TWINE-80", 6, 4), (2, "LED-80", 8, 8)),
        *((0, "AES-128", 12, 8), (3, "AES-128", 12, 8), (1, "AES-128", 11, 8), (1, "AES-128", 13, 8), (1, "AES-128", 12, 6)),
        *((2, "AES-128", 14, 0), (2, "AES-128", 0, 8), (1, "TWINE-80", 4, 12), (1, "AES-192", 12, 8), (1, "aes-128", 12, 8)),
    ):
        lookup.tests.append(_lookup("NoRow", code, cipher, n, t))
    assert {cipher for _, cipher, _ in ROWS} == set(FUNCTIONS)
    yield lookup


def _fields() -> Iterator[tuple[int, int, int, int]]:
    for code in (0, 1, 2, 3, 255):
        yield code, 8, 6, 4
    for width in (0, 7, 8, 9, 12, 15, 16, 17, 255):
        yield 1, width, 4, 4
    for width in (8, 16):
        for n in (0, 1, width - 3, width - 2, width - 1, width, 255):
            yield 2, width, n, 4
        for t in (0, 1, width - 1, width, width + 1, 255):
            yield 1, width, 4, t


def _rule(code: int, width: int, n: int, t: int, flag: str) -> Chosen:
    comment = f"code {code}, width {width}, n = {n}, t = {t}"
    return Chosen(comment, (flag,), "setrule", [("code", code), ("width", width), ("n", n), ("t", t), ("param", 0xC0)])


def _lookup(flag: str, code: int, cipher: str, n: int, t: int) -> Chosen:
    return Chosen(f"code {code}, {cipher}, n = {n}, t = {t}", (flag,), "lookup", [("code", code), ("cipher", cipher), ("n", n), ("t", t)])
