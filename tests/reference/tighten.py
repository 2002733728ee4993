#!/usr/bin/env python3
"""Gives every chart of a packed list tables of exact lengths, learned from the second reader.

usage: tighten.py REFERENCE < LIST > LIST
An accepted chart is written with tables exactly long enough, with a few words to spare, and with each table in turn one word
too short; a refused one with small tables.
"""
import pathlib
import sys

sys.path.insert(0, str(pathlib.Path(__file__).resolve().parents[1] / "driver"))
import packed

SPARE = 3                     # words more than needed
REFUSED = [8, 2, 4, 8, 2]     # the lengths lent for a refused chart


def lengths_to_try(numbers):
    refusal, _line, *counts = numbers
    if refusal:
        return [REFUSED]
    needed = [8, *counts]
    tries = [needed, [length + SPARE for length in needed]]
    for table, length in enumerate(needed):
        if length:
            tries.append([*needed[:table], length - 1, *needed[table + 1:]])
    return tries


def tightened(reference, data):
    """For each chart of a list and each choice of lengths: the chart, the lengths, and its answer with large tables."""
    charts = [chart for _header, chart in packed.unpacked(data)]
    answers = packed.run([reference, "packed"], b"".join(packed.pack(chart) for chart in charts))
    return [(chart, lengths, answer)
            for chart, answer in zip(charts, answers, strict=True) for lengths in lengths_to_try(answer[0])]


if __name__ == "__main__":
    for one_chart, one_lengths, _answer in tightened(sys.argv[1], sys.stdin.buffer.read()):
        sys.stdout.buffer.write(packed.pack(one_chart, one_lengths))
