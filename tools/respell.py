#!/usr/bin/env python3
"""Gives the definitions and lemmas of this repository the spelling of today's Rattle: words in snake case.

usage: python3 tools/respell.py            at the top of the checkout, once, after the kit's own port.py

A name is turned if it is defined in specs/ or proofs/ (a definition, a lemma, a field of a record or a constructor; not a goal) and has a
hyphen, or begins with a small letter and has a capital inside. Names of published steps (PRESENT's and LED's) stay as they are published.
A file keeps a name that it imports from a library. Names that would fall together with another are listed, and stay.
"""
import glob
import os
import re
import sys

PUBLISHED = {"addRoundKey", "sBoxLayer", "pLayer"}
# Names that would fall together with another, and what they are called instead, and an alias: by the folder in which it is so.
APART = {
    "crates/": {"bit-and": "bit_of_and", "bit-or": "bit_of_or", "bit-xor": "bit_of_xor"},
    "crates/ledger/": {"is_open": "open_by_test"},
    "crates/present/": {"round-key": "round_key_of"},
    "crates/aes_circuit/": {"in-plane": "in_plane_at"},
    "crates/receiver/": {"leftAfterMode": "left_after_mode"},
}
# A name of TWINE's article that port.py takes for one of the library's.
RESTORED = {"crates/twine": (r"\bResultKind\b", "RK")}
WORD = r"[^\s(){}\[\];,.:\"`«»|]+"
TOKEN = re.compile(r"(?<![^\s(){}\[\];,.:\"`«»|])(" + WORD + r")(?![^\s(){}\[\];,.:\"`«»|])")
SIGNATURE = re.compile(r"^(\s*)(?:(?:abbrev|unfoldable|pub)\s+)*(" + WORD + r")((?:\s+[({][^:]*:[^)}]*[)}])*)\s+:(?:\s+(\S+)|\s*$)")
IMPORT = re.compile(r"^\s*(?:ghost\s+)?(?:pub\s+)?use\s+([\w.'+-]+)\.\{([^}]*)\}", re.M)


def snake(name):
    if name in PUBLISHED:
        return name
    for p in sorted(PUBLISHED, key=len, reverse=True):
        name = name.replace(p, "\0%d\0" % sorted(PUBLISHED).index(p))
    name = name.replace("-", "_")
    if re.match(r"[a-z\0]", name) and not re.search(r"_[A-Z]{2,}|_SH", name):
        name = re.sub(r"(?<=[a-z0-9])([A-Z])", lambda m: "_" + m.group(1).lower(), name)
    return re.sub("\0(\\d)\0", lambda m: sorted(PUBLISHED)[int(m.group(1))], name)


def crates():
    return {c for c in os.listdir("crates") if os.path.isdir(os.path.join("crates", c, "src"))}


def files():
    for pattern in ("crates/*/specs/**/*.antt", "crates/*/proofs/**/*.antt", "crates/*/src/**/*.rt"):
        yield from sorted(glob.glob(pattern, recursive=True))


def defined(text):
    for line in text.splitlines():
        m = SIGNATURE.match(line)
        if m and not (m.group(4) or "").startswith("goal.") and m.group(2) not in ("use", "let", "in", "--"):
            yield m.group(2)


def from_libraries(text, own):
    names = set()
    for path, inside in IMPORT.findall(text):
        parts = path.split(".")
        if parts[0] == "Rattle" and len(parts) > 1 and parts[1] in own:
            continue
        names |= {re.split(r"\s+as\s+", n.strip())[0] for n in inside.split(",")}
    return names


def respelled(line, names, code):
    """A line with these names turned: not in text, and in a comment only between backquotes."""
    parts = re.split(r'("(?:[^"\\\\]|\\\\.)*")', line) if code else [line]
    done, comment = [], False
    for part in parts:
        if code and part.startswith('"') and not comment:
            done.append(part)
            continue
        at = 0 if comment else part.find("//" if code else "-- ")
        if at < 0:
            at = len(part)
        elif not code and at > 0 and not part[at - 1].isspace():
            at = len(part)
        comment = comment or at < len(part)
        turn = lambda m: names.get(m.group(1), m.group(1))
        done.append(TOKEN.sub(turn, part[:at]) + re.sub(r"`([^`\s]+)`", lambda m: "`" + names.get(m.group(1), m.group(1)) + "`", part[at:]))
    return "".join(done)


def main():
    own = crates()
    texts = {p: open(p, encoding="utf-8").read() for p in files()}
    names = set()
    for p, t in texts.items():
        if p.endswith(".antt"):
            names |= {n for n in defined(t) if snake(n) != n}
    taken = {n for t in texts.values() for n in TOKEN.findall(t)}
    turned = {}
    for n in sorted(names):
        if snake(n) in taken:
            print(f"falls together: {n} would be {snake(n)}")
        turned[n] = snake(n)
    clash = {}
    for n, to in turned.items():
        clash.setdefault(to, []).append(n)
    for to, ns in clash.items():
        if len(ns) > 1:
            print(f"fall together: {' '.join(ns)} as {to}")
    for p, t in texts.items():
        keep = from_libraries(t, own)
        here = {n: to for n, to in turned.items() if n not in keep}
        for folder, names in APART.items():
            if p.startswith(folder):
                here.update(names)
        new = "".join(respelled(l, here, p.endswith(".rt")) for l in t.splitlines(keepends=True))
        for folder, (taken_for, name) in RESTORED.items():
            if p.startswith(folder):
                new = re.sub(taken_for, name, new)
        if new != t:
            open(p, "w", encoding="utf-8").write(new)
    pages = sorted(glob.glob("docs/*.md")) + ["README.md"]
    for p in pages:
        t = open(p, encoding="utf-8").read()
        new = re.sub(r"`([^`\s]+)`", lambda m: "`" + turned.get(m.group(1), m.group(1)) + "`", t)
        if new != t:
            open(p, "w", encoding="utf-8").write(new)
    print(f"{len(turned)} names turned")


if __name__ == "__main__":
    sys.exit(main())
