#!/usr/bin/env python3
"""Lists the places of src/ that a reader in search of older forms would look at, by point, with counts.

    python3 tools/places.py [FOLDER] [-v]      the counts (with -v: every place) of the checkout at FOLDER (default: here)

Each point is a pattern over the lines of crates/*/src/**/*.rt, or a count that is said below. A place is a candidate: docs/DESIGN-PASS.md
says what became of each.
"""
import re
import sys
from collections import defaultdict
from pathlib import Path

args = [a for a in sys.argv[1:] if not a.startswith("-")]
verbose = "-v" in sys.argv
root = Path(args[0] if args else ".")

sources = {p: p.read_text().splitlines() for p in sorted(root.glob("crates/*/src/**/*.rt"))}


def name(path):
    return path.relative_to(root / "crates").as_posix()


def lines(pattern):
    found = []
    for path, text in sources.items():
        for i, line in enumerate(text, 1):
            if not line.lstrip().startswith("//") and re.search(pattern, line):
                found.append(f"{name(path)}:{i}: {line.strip()[:110]}")
    return found


def functions():
    """Each function: path, line, head (to the brace), body."""
    for path, text in sources.items():
        i = 0
        while i < len(text):
            m = re.match(r"^(\s*)(pub(\(crate\))? )?(const )?fn (\w+)", text[i])
            if not m:
                i += 1
                continue
            start, indent = i, m.group(1)
            while i < len(text) and not (text[i].rstrip() == indent + "{" or text[i].rstrip().endswith("{") or text[i].rstrip().endswith(";")):
                i += 1
            head = text[start : i + 1]
            if i < len(text) and text[i].rstrip().endswith(";"):
                i += 1
                continue
            body = []
            i += 1
            while i < len(text) and text[i] != indent + "}":
                body.append(text[i])
                i += 1
            yield path, start + 1, m.group(5), head, body
            i += 1


def shape(body):
    """A body with its names and numbers left out."""
    text = " ".join(" ".join(line.split("//")[0] for line in body).split())
    text = re.sub(r'"[^"]*"', "s", text)
    text = re.sub(r"\b0x[0-9a-f_]+|\b\d[\d_]*\b", "0", text)
    return re.sub(r"\b(?!if\b|else\b|match\b|for\b|in\b|return\b|let\b|mut\b|Ok\b|Err\b|Some\b|None\b)[A-Za-z_]\w*", "x", text)


def twins():
    """Functions whose bodies are the same but for names and numbers, in groups. Of a body of less than 40 characters that says too little:
    there the name and the body have to be the same to the letter."""
    groups = defaultdict(list)
    for path, line, fn, _head, body in functions():
        key = shape(body)
        if len(key) < 40:
            key = fn + " " + " ".join(" ".join(body).split())
        groups[key].append(f"{name(path)}:{line}: fn {fn}")
    found = []
    for group in groups.values():
        if len(group) > 1:
            found.append("  =  ".join(group))
    return found


def parameters():
    """Functions that take six or more arguments, `self` among them."""
    found = []
    for path, line, fn, head, _body in functions():
        text = " ".join(h.strip() for h in head)
        m = re.search(r"fn \w+(?:<[^(]*>)?\((.*?)\)\s*(->|$|\{|requires|ensures)", text)
        if m:
            n = len([a for a in re.split(r",(?![^<(\[]*[>)\]])", m.group(1)) if a.strip()])
            if n >= 6:
                found.append(f"{name(path)}:{line}: fn {fn} takes {n}")
    return found


def facts():
    """A `requires` that stands in three functions or more, with its names of places left out."""
    seen = defaultdict(set)
    for path, line, fn, head, _body in functions():
        for h in head:
            m = re.match(r"\s*requires(?: \w+)? \{ (.*) \}", h)
            if m:
                fact = re.sub(r"\b[a-z_]+\.(now|old)\b", "x", m.group(1))
                seen[fact].add(f"{name(path)}:{line}")
    return [f"{len(v)} times: {k[:110]}" for k, v in sorted(seen.items(), key=lambda e: -len(e[1])) if len(v) >= 3]


def answers():
    found = []
    for path in sorted(root.glob("crates/*/proofs/**/*.antt")):
        for i, line in enumerate(path.read_text().splitlines(), 1):
            if re.match(r"pub \S+ : goal\.", line):
                found.append(f"{path.relative_to(root / 'crates').as_posix()}:{i}: {line[:90]}")
    return found


# point, what it looks for, and a pattern of lines or a function that finds the places
POINTS = [
    ("1", "enums of this repository", r"\benum \w+"),
    ("1", "variants that hold a byte (a number for a kind or a refusal?)", r"^\s+[A-Z]\w*\(u8\b.*\),$"),
    ("1", "answers or parameters that are a bool (a flag?)", r"-> (Result<)?bool|\w: bool\b"),
    ("2", "groups of functions whose bodies are the same but for names and numbers", twins),
    ("3", "loops over a range, and `while`", r"\bfor \w+ in [^{]*\.\.|\bwhile "),
    ("3", "counters by hand", r"saturating_add\(1\)|\b(number|done|used|i|n) \+= "),
    ("4", "impls of Display, From, TryFrom, equality, order or copying", r"^impl.*\b(Display|From<|TryFrom<|PartialEq|PartialOrd|Ord|Clone|Copy|Default|Hash)\b"),
    ("4", "bytes put together or taken apart by hand", r"\* 256\b|/ (256|65536|16777216)\b|% 256\b|from_(be|le)_bytes\(\[$"),
    ("4", "matches that turn one answer into another", r"^\s+(Ok\(\w*\)|Some\(\w+\)|Err\(_\)|None) => (Ok|Err|Some|None|return)\b"),
    ("5", "functions of six or more arguments", parameters),
    ("5", "the same fact required by three or more functions", facts),
    ("5", "two facts in one `requires`", r"^\s*requires.*\) × \("),
    ("6", "a place or a length as a number beside bytes", r"\b\w*(_at|_len|at|len): usize"),
    ("6", "buffers on the stack of which a part is used", r"= \[0(u8)?; \d+\];$"),
    ("6", "Vec fields, of which two may run side by side", r"^\s+pub \w+: Vec<"),
    ("7", "enums and parameters that choose a step, tables of functions", r"enum \w*(Kind|Step|Which)\b|: fn\(|Kind::\w+\)"),
    ("8", "answers in proofs/", answers),
]

for point, what, find in POINTS:
    found = lines(find) if isinstance(find, str) else find()
    print(f"{point}  {len(found):4d}  {what}")
    if verbose and point != "8":
        for place in found:
            print("        " + place)
