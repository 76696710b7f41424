#!/usr/bin/env python3
"""Writes cases of a kind to standard output, the same for the same seed: python3 reference/cases.py KIND SEED COUNT"""

import sys

from rognivar.generate import KINDS, inputs
from rognivar.lines import answer

NAMES = (*KINDS, "unreadable")


def main() -> None:
    if len(sys.argv) != 4 or sys.argv[1] not in NAMES:
        sys.exit(f"usage: cases.py KIND SEED COUNT, where KIND is one of {', '.join(NAMES)}")
    kind, seed, count = sys.argv[1], int(sys.argv[2]), int(sys.argv[3])
    for line in inputs(kind, seed, count):
        sys.stdout.buffer.write(answer(line.encode()) + b"\n")


if __name__ == "__main__":
    main()
