#!/usr/bin/env python3
"""Makes charts at the edge of the text's length, each followed by a small one so that a list out of step is noticed.

usage: edges.py FOLDER > LIST
Prints them as a packed list and writes each into FOLDER as edge-NAME.sc.
"""
import pathlib
import sys

LIMIT = 65536
SMALL = b"A\nC;G\n"


def filled(start, length):
    """A chart of exactly this many bytes: the lyrics are as long as needed."""
    return start + b"x" * (length - len(start))


SONG = b"Song\nC G;Am F\n--\n"
BEATS = b"@time 32/4\n\nLong\n[C]2000\n_repeat 32\n"      # 64,000 measures, 2,048,000 beats
CHARTS = {
    "empty": b"",
    "longest": filled(SONG, LIMIT),
    "longest-counted": filled(SONG, LIMIT - 3) + b" _2",
    "longest-refused": filled(b"Song\n[", LIMIT),
    "longest-line-ends": filled(SONG, LIMIT - 1000) + b"\n" * 1000,
    "too-long": filled(SONG, LIMIT + 1),
    "much-too-long": filled(SONG, LIMIT + 4097),
    "very-long": filled(SONG, 5 * LIMIT),
    "too-long-bad-text": filled(b"\xff", LIMIT + 1),
    "longest-bad-end": filled(SONG, LIMIT - 1) + b"\xc3",
    "many-sections": b"A\nC\n\n" * (LIMIT // 5),
    "many-items": b"A\n[C]9999\n--\n" + b"a _1\n" * 9999,
    "many-beats": BEATS,
}


def main():
    folder = pathlib.Path(sys.argv[1])
    for name, chart in CHARTS.items():
        (folder / f"edge-{name}.sc").write_bytes(chart)
        for one in (chart, SMALL):
            sys.stdout.buffer.write(b"%d\n%s" % (len(one), one))


main()
