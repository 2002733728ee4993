#!/usr/bin/env python3
"""Makes charts on both sides of the listing program's four table sizes.

usage: sizes.py FOLDER
Writes each into FOLDER as size-NAME.sc, and beside it size-NAME.first, the first line of its listing.
"""
import pathlib
import sys

SHORT = "refused 18 line 0"


def lines(count):
    """A song of so many measures of one beat, each with an item."""
    return f"@time 1/4\n\nV\n[A]{count}\n--\n" + "a _1\n" * count


CHARTS = {
    "sections-512": ("V\nA\n\n" * 512, "song 512 512 2048 0"),
    "sections-513": ("V\nA\n\n" * 513, SHORT),
    "measures-2048": ("@time 1/4\n\nV\n[A]2048\n", "song 1 2048 2048 0"),
    "measures-2049": ("@time 1/4\n\nV\n[A]2049\n", SHORT),
    "beats-8192": ("@time 32/4\n\nV\n[A]256\n", "song 1 256 8192 0"),
    "beats-8193": ("@time 32/4\n\nV\n[A]257\n_cutEnd -31\n", SHORT),
    "items-1024": (lines(1024), "song 1 1024 1024 1024"),
    "items-1025": (lines(1025), SHORT),
}


def main():
    folder = pathlib.Path(sys.argv[1])
    for name, (chart, first) in CHARTS.items():
        (folder / f"size-{name}.sc").write_text(chart, newline="")
        (folder / f"size-{name}.first").write_text(first + "\n")


main()
