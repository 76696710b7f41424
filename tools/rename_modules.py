#!/usr/bin/env python3
"""Renames the module `cipher` of each cipher's crate, since a module may no longer have the name of a library that the crate uses.

usage: python3 tools/rename_modules.py        at the top of the checkout, once, after tools/rename_steps.py
"""
import glob
import os
import re

MODULES = {"aes": "aes128", "present": "present80", "led": "led80", "twine": "twine80"}
NAMES = {crate + form: name for crate, name in MODULES.items() for form in ("", "_circuit")}


def turned(text, crate):
    for c, name in NAMES.items():
        text = re.sub(r"(?<![\w:])%s::cipher(?=::)" % c, "%s::%s" % (c, name), text)
        text = re.sub(r"\bRattle\.%s\.(specs\.declared|specs\.contracts|proofs)\.cipher\b" % c, r"Rattle.%s.\1.%s" % (c, name), text)
    if crate in NAMES:
        text = re.sub(r"\bcrate::cipher\b", "crate::" + NAMES[crate], text)
        text = re.sub(r"^(pub )?mod cipher;", r"\1mod %s;" % NAMES[crate], text, flags=re.M)
        text = re.sub(r"^file: src/cipher(?=\.rt|/)", "file: src/" + NAMES[crate], text, flags=re.M)
    return text


for crate, name in NAMES.items():
    for folder, kind in (("src", ".rt"), ("src", ""), ("proofs", "")):
        old, new = (os.path.join("crates", crate, folder, it + kind) for it in ("cipher", name))
        if os.path.exists(old):
            os.rename(old, new)
for pattern in ("crates/*/src/**/*.rt", "crates/*/specs/**/*.antt", "crates/*/proofs/**/*.antt", "crates/*/must-fail/*.edit"):
    for p in sorted(glob.glob(pattern, recursive=True)):
        with open(p, encoding="utf-8") as f:
            old = f.read()
        new = turned(old, p.split("/")[1])
        if new != old:
            with open(p, "w", encoding="utf-8") as f:
                f.write(new)
