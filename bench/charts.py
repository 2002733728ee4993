#!/usr/bin/env python3
"""Writes the charts that the readers are timed on into a folder.

usage: charts.py FOLDER
Each file is NAME.sc; the kinds that grow are there at 8, 16, 32 and 64 KB, as NAME-8K.sc to NAME-64K.sc.
"""
import pathlib
import shutil
import sys

CHARTS = pathlib.Path(__file__).resolve().parents[1] / "tests/charts"
SIZES = {"8K": 8192, "16K": 16384, "32K": 32768, "64K": 65536}
MOST_MEASURES = 65535

SECTION = """Verse {number}!softly
@bpm 96
A D;G
[Em;A7]2
_repeat 2
_cutEnd 1
--
Across the water we go _5
***Drums*** _6

"""
LONG_CHORD = "A" + "x" * 30
POSITIONS = 32


def full(pieces, size):
    """As many of the pieces as fit."""
    text = ""
    for piece in pieces:
        if len(text) + len(piece) > size:
            break
        text += piece
    return text


def endless(make):
    number = 0
    while True:
        number += 1
        yield make(number)


def dense(size):
    """One pattern, four chords to a measure, as many measures as fit."""
    return "Dense\n" + full(endless(lambda n: "A Bm C#m D7;" if n % 8 else "G Em F#m A7\n"), size - 20) + "A\n"


def sections(size):
    return full(endless(lambda n: SECTION.format(number=n)), size)


def named(size):
    """One definition of half the size, then sections that name it."""
    measure = " ".join([LONG_CHORD] * POSITIONS) + "\n"
    count = max(1, (size // 2) // len(measure))
    head = f"@time {POSITIONS}/4\n\n$1\n" + measure * count + "\n"
    naming = min((size - len(head)) // 6, MOST_MEASURES // count)
    return head + "S\n$1\n\n" * naming


def refused(size):
    """The sections, and a last line that is no pattern text."""
    return sections(size - 20) + "Coda\nH\n"


def largest():
    """65,535 measures of 32 beats."""
    row = " ".join(["A"] * POSITIONS)
    return f"@time {POSITIONS}/4\n\nAll\n[{row}]9999\n_repeat 6\n\nRest\n[{row}]5541\n"


def looped():
    """A loop whose copy, 36 bytes a pass, has nearly the 65,536 bytes that one may have."""
    return "Looped\n[A D;G;Em A7;D]1820\n"


def main():
    folder = pathlib.Path(sys.argv[1])
    shutil.copy(CHARTS / "trial-listing.sc", folder / "ordinary-trial.sc")
    shutil.copy(CHARTS / "song-complex-song-with-loops-and-modifiers.sc", folder / "ordinary-song.sc")
    for name, make in (("dense", dense), ("sections", sections), ("named", named), ("refused", refused)):
        for label, size in SIZES.items():
            (folder / f"{name}-{label}.sc").write_text(make(size))
    (folder / "largest.sc").write_text(largest())
    (folder / "looped.sc").write_text(looped())


main()
