#!/usr/bin/env python3
"""Checks what request 1 says of the flat copy, on the charts of a packed list: read again, the copy gives the original's tables but for heads
(now all 1), header lines and offsets; and the copy of the copy is that copy.

usage: copies.py REFERENCE [--spoil] < LIST
With --spoil a chord of each copy is altered, which must be noticed: then no copy may be found right.
"""
import pathlib
import sys

sys.dont_write_bytecode = True  # nothing is written beside the sources
sys.path.insert(0, str(pathlib.Path(__file__).resolve().parents[1] / "driver"))
import packed

ROOM = 65536
# The bits of a table's words that the copy keeps: not the offsets of keys, beats and items, not the lines of sections, not heads.
KEPT = [0x80007FFF, (1 << 47) - 1, 0xFFFFFFFF, 0xFC0003EF, (1 << 48) - 1]
BEATS, HEAD = 3, 16


def copies_of(reference, charts):
    """Of each chart the refusal and the copy."""
    calls = b"".join(packed.pack_call("flat", [len(chart), ROOM], chart) for chart in charts)
    return [(numbers[0], bytes(copy)) for numbers, (copy,) in packed.run([reference, "packed"], calls)]


def kept(answer):
    numbers, tables = answer
    return numbers, [[word & bits for word in table] for table, bits in zip(tables, KEPT, strict=True)]


def is_right(original, again, copied, copy):
    """The answers of the original and of the copy, and the copy's refusal and copy."""
    heads = all(word & HEAD for word in again[1][BEATS])
    return heads and kept(original) == kept(again) and copied == (0, copy)


def main():
    reference, spoil = sys.argv[1], "--spoil" in sys.argv
    charts = [chart for _header, chart in packed.unpacked(sys.stdin.buffer.read())]
    pairs = [(chart, copy) for chart, (refusal, copy) in zip(charts, copies_of(reference, charts), strict=True) if not refusal]
    copies = [copy[:-1] + b"x\n" if spoil else copy for _chart, copy in pairs]
    originals = packed.run([reference, "packed"], b"".join(packed.pack(chart) for chart, _copy in pairs))
    again = packed.run([reference, "packed"], b"".join(packed.pack(copy) for copy in copies))
    right = sum(map(is_right, originals, again, copies_of(reference, copies), [copy for _chart, copy in pairs]))
    wanted = 0 if spoil else len(pairs)
    print(f"{right} of {len(pairs)} copies read again as they should")
    sys.exit(0 if pairs and right == wanted else 1)


main()
