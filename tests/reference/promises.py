#!/usr/bin/env python3
"""Checks what the second reader promises of lent memory, on tables of exact lengths (see tighten.py).

usage: promises.py REFERENCE < LIST
With tables long enough the answer and the words written are those got with large tables, and all words past them keep what they
held; with a table too short the answer is refusal 18, and after any refusal no word of any table has changed.
"""
import sys

sys.dont_write_bytecode = True  # nothing is written beside the sources

import tighten
from tighten import packed

FILL = 0x5A5A5A5A  # word i of a table starts as this plus i
TABLE_TOO_SHORT = [18, 0, 0, 0, 0, 0]


def expected_answer(lengths, answer):
    head, tables = answer
    short = not head[0] and any(length < len(words) for length, words in zip(lengths, tables))
    if short:
        head = TABLE_TOO_SHORT
    whole = []
    for length, words in zip(lengths, tables):
        written = [] if head[0] else words
        whole.append(written + [FILL + place for place in range(len(written), length)])
    return head, whole


def main():
    reference = sys.argv[1]
    cases = tighten.tightened(reference, sys.stdin.buffer.read())
    tight = b"".join(packed.pack(chart, lengths) for chart, lengths, _answer in cases)
    broken = 0
    for (chart, lengths, answer), found in zip(cases, packed.run([reference, "--whole", "packed"], tight), strict=True):
        if found != expected_answer(lengths, answer):
            broken += 1
            print(f"lengths {lengths}, chart {chart[:200]!r}: found {found[0]}", file=sys.stderr)
    print(f"{len(cases)} tables of exact lengths, {broken} broken")
    sys.exit(1 if broken else 0)


main()
