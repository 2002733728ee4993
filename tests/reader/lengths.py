#!/usr/bin/env python3
"""Gives the charts of a packed list tables of mixed lengths: as they were, none named, all small, some small, some any.

usage: lengths.py < LIST > LIST
"""
import pathlib
import sys

sys.path.insert(0, str(pathlib.Path(__file__).resolve().parents[1] / "driver"))
import packed

MIXED = [
    None,
    [],
    [8, 1, 2, 8, 1],
    [16, 40, 300, 2000, 60],
    ["-", 3, "-", 40, "-"],
    [8, "-", 20, "-", 0],
    [7, "-", "-", "-", "-"],
]


def main():
    for number, (header, chart) in enumerate(packed.unpacked(sys.stdin.buffer.read())):
        lengths = MIXED[number % len(MIXED)]
        sys.stdout.buffer.write(packed.pack(chart, header[1:] if lengths is None else lengths))


main()
