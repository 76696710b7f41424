#!/usr/bin/env python3
"""Writes vectors/*.json, and the same tests as lines into vectors/cases.in, with what the program `cases` must write in vectors/cases.out:
python3 reference/vectors.py

The lines have the file's name and the test's number in their field `case`.
"""

from __future__ import annotations

import json
from pathlib import Path
from types import ModuleType

from chosen import calls, ciphers, modes, sends, sessions, sets, tubes
from chosen.group import Chosen
from rognivar.choices import line
from rognivar.jsonform import Json, expected, inputs_of
from rognivar.lines import answer

ROOT = Path(__file__).resolve().parent.parent
FILES: tuple[ModuleType, ...] = (ciphers, modes, calls, sets, tubes, sends, sessions)


def test_of(number: int, name: str, chosen: Chosen) -> tuple[Json, str]:
    """The test, and the line of its inputs."""
    given = line("modecall" if chosen.kind == "rejected" else chosen.kind, f"{name}-{number}", chosen.fields)
    full = answer(given.encode()).decode()
    assert " bad=" not in full, full[-80:]
    head = {"tcId": number, "comment": chosen.comment, "flags": list(chosen.flags)}
    return head | expected(chosen.kind, full), given


def document(module: ModuleType) -> tuple[Json, list[str]]:
    """A file of vectors, and the lines of its tests."""
    lines: list[str] = []
    groups: list[Json] = []
    for group in module.groups():
        made: Json = {"type": group.type, **group.head, "tests": []}
        for chosen in group.tests:
            test, given = test_of(len(lines) + 1, module.NAME, chosen)
            assert inputs_of(f"{module.NAME}-{test['tcId']}", made, test) == given, given[:200]
            assert set(chosen.flags) <= set(module.FLAGS), chosen.flags
            made["tests"].append(test)
            lines.append(given)
        groups.append(made)
    return {"algorithm": module.NAME, "numberOfTests": len(lines), "notes": module.FLAGS, "testGroups": groups}, lines


def text_of(made: Json) -> str:
    """JSON with one test to a line."""
    head = {name: value for name, value in made.items() if name != "testGroups"}
    parts = [json.dumps(head, indent=2)[:-2] + ',\n  "testGroups": [']
    for i, group in enumerate(made["testGroups"]):
        fields = [f"      {json.dumps(name)}: {json.dumps(value)}," for name, value in group.items() if name != "tests"]
        tests = ",\n".join(f"        {json.dumps(test)}" for test in group["tests"])
        end = "    }" if i + 1 == len(made["testGroups"]) else "    },"
        parts.append("\n".join(["    {", *fields, '      "tests": [', tests, "      ]", end]))
    return "\n".join(parts) + "\n  ]\n}\n"


def write_lines(lines: list[str]) -> None:
    given = [text.encode() for text in lines]
    (ROOT / "vectors/cases.in").write_bytes(b"".join(text + b"\n" for text in given))
    (ROOT / "vectors/cases.out").write_bytes(b"".join(answer(text) + b"\n" for text in given))


def main() -> None:
    lines: list[str] = []
    for module in FILES:
        made, more = document(module)
        text = text_of(made)
        assert json.loads(text) == made
        (ROOT / "vectors" / f"{module.NAME}.json").write_text(text)
        print(f"vectors/{module.NAME}.json: {len(more)} tests, {len(text) // 1024} KB")
        lines += more
    write_lines(lines)


if __name__ == "__main__":
    main()
