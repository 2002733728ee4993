#!/usr/bin/env python3
"""Makes the second call for beats and tables at the edges of its fields, as a packed list.

usage: finds.py > LIST
"""
import pathlib
import sys

sys.path.insert(0, str(pathlib.Path(__file__).resolve().parents[1] / "driver"))
import packed

BEATS = (0, 1, 3, 4, 5, 6, 7, 8, 100, 2097150, 2097151, 2097213, 2097214, 4294967295)
TABLES = (
    (),
    (128,),
    (128, 8192, 8288, 8351, 4294967295),  # beats 0 to 3, none, 4 to 6, 4 to 7 with spare bits set, the last beats of the field
    (4294967295, 128, 8320),
)


def main():
    for beat in BEATS:
        for table in TABLES:
            sys.stdout.buffer.write(packed.pack_call("find", [beat, len(table)], packed.words(4, table)))


main()
