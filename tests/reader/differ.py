#!/usr/bin/env python3
"""Finds the first chart of a packed list to which two files of answers have different lines, shows both and writes the chart.

usage: differ.py LIST EXPECTED FOUND FILE
Fails if there is a difference.
"""
import itertools
import pathlib
import sys

sys.path.insert(0, str(pathlib.Path(__file__).resolve().parents[1] / "driver"))
import packed

SHOWN = 120  # characters of a line that are shown around the first difference


def around(line, place):
    start = max(0, place - SHOWN // 2)
    return line[start:start + SHOWN].decode(errors="replace")


def main():
    listed, expected, found = (open(name, "rb").read() for name in sys.argv[1:4])
    for number, (one, other) in enumerate(itertools.zip_longest(expected.splitlines(), found.splitlines(), fillvalue=b"")):
        if one == other:
            continue
        place = next((i for i, (a, b) in enumerate(zip(one, other)) if a != b), min(len(one), len(other)))
        header, chart = next(itertools.islice(packed.unpacked(listed), number, None))
        with open(sys.argv[4], "wb") as file:
            file.write(chart)
        print(f"chart {number} differs at character {place} of its line; header {' '.join(header)}; chart in {sys.argv[4]}")
        print(f"expected ...{around(one, place)}")
        print(f"found    ...{around(other, place)}")
        sys.exit(1)


main()
