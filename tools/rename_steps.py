#!/usr/bin/env python3
"""Spells the steps and goals that proof files name as today's Rattle does: a name of the code keeps its underscores.

usage: python3 tools/rename_steps.py        at the top of the checkout, once, after tools/respell.py
"""
import glob
import re

KINDS = ["in_ok", "in_err", "in_some", "in_none", "type_inv", "well_formed", "from_residual", "overflow_add", "overflow_sub",
         "overflow_mul", "overflow_shl", "overflow_shr", "overflow_cast", "slice_bounds", "slice_known", "shared_slice_known",
         "struct_known", "in_default", "invariant_of", "front_len", "back_len", "by_index"]
CODE = set(KINDS)
for p in glob.glob("crates/*/src/**/*.rt", recursive=True):
    CODE |= set(re.findall(r"(?<![A-Za-z0-9_])[a-z][a-z0-9]*(?:_[a-z0-9]+)+(?![A-Za-z0-9_])", open(p, encoding="utf-8").read()))
CODE = sorted(CODE, key=len, reverse=True)
PATTERNS = [(re.compile(r"(?<![A-Za-z0-9_])" + w.replace("_", "[-_]") + r"(?=-|$)"), w) for w in CODE]


def step(name):
    for pattern, word in PATTERNS:
        name = pattern.sub(word, name)
    return name


def turned(text):
    text = re.sub(r"(?<=[a-zA-Z0-9_)]\.)([a-z][A-Za-z0-9_]*(?:-[A-Za-z0-9_]+)+)", lambda m: step(m.group(1)), text)
    goals = re.findall(r"^(?:abbrev )?(?:pub )?([a-z][\w-]*) : goal\.", text, re.M)
    arms = [n.strip() for m in re.findall(r"^use [\w.+'-]+\.(?:Goals|Given)\.\{([^}]*)\}", text, re.M) for n in m.split(",")]
    for old in sorted(set(goals + arms), key=len, reverse=True):
        if step(old) != old:
            text = re.sub(r"(?<![\w.-])" + re.escape(old) + r"(?![\w-])", step(old), text)
    return text


for p in glob.glob("crates/*/proofs/**/*.antt", recursive=True):
    t = open(p, encoding="utf-8").read()
    if ".Goals" not in t and ".Given" not in t:
        continue
    new = turned(t)
    if new != t:
        open(p, "w", encoding="utf-8").write(new)
