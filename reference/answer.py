#!/usr/bin/env python3
"""Reads cases from standard input and writes them with what this implementation computes: python3 reference/answer.py < lines | diff - lines"""

import sys

from rognivar.lines import answer


def main() -> None:
    for line in sys.stdin.buffer:
        sys.stdout.buffer.write(answer(line.rstrip(b"\n")) + b"\n")


if __name__ == "__main__":
    main()
