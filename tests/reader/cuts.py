#!/usr/bin/env python3
"""Makes charts whose cuts begin and end in, between and behind the passes of loops that are repeated: every pass of a loop may be
passed over, written, copied or cut.

usage: cuts.py > LIST
Prints them as a packed list.
"""
import itertools
import sys

LENGTHS = (8, 1, 200, 800, 0)   # words of the five tables: enough for each of these songs
PATTERNS = (
    ("4/4", "[A D;G]5"),
    ("4/4", "[A =;D]3\nE"),
    ("4/4", "[A % _ =;D]4\nG"),
    ("4/4", "A\n[D;E F]3\n[G]2"),
    ("2/4", "[A]4\n[D E]7"),
    ("4/4", "[A;D;E;G]2\n[F =]6"),
)
REPEATS = (1, 2, 3)
FRONT = tuple(itertools.product((0, 1, 2, 3, 5, 9, 13), (0, 1, 3, 6)))
BACK = tuple(itertools.product((0, 1, 4, 7), (0, 2, 5)))


def cut(name, measures, beats):
    """The modifier's line; none where nothing is cut."""
    if not measures and not beats:
        return ""
    if not beats:
        return f"{name} {measures}\n"
    return f"{name} {measures or ''}-{beats}\n"


def charts():
    for (time, pattern), repeat, front, back in itertools.product(PATTERNS, REPEATS, FRONT, BACK):
        repeated = f"_repeat {repeat}\n" if repeat > 1 else ""
        yield f"@time {time}\n\nV\n{pattern}\n{repeated}{cut('_cutStart', *front)}{cut('_cutEnd', *back)}"


def main():
    for chart in charts():
        sys.stdout.write(f"{len(chart)} {' '.join(map(str, LENGTHS))}\n{chart}")


main()
