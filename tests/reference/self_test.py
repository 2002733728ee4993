#!/usr/bin/env python3
"""Makes two small folders of charts, each with one thing altered, on which compare.py must report exactly one difference.

usage: self_test.py CHARTS WORK
Makes WORK/altered-word (one beat word is one more) and WORK/altered-listing (one byte of a listing is another).
"""
import json
import pathlib
import shutil
import sys

NAMES = ["trial-two-measures", "trial-listing", "trial-repeat-first"]
ALTERED = "trial-two-measures"


def copy_charts(charts, folder):
    folder.mkdir()
    for name in NAMES:
        for ending in (".sc", ".listing"):
            shutil.copy(charts / (name + ending), folder)
    lines = (charts / "tables.jsonl").read_text().splitlines()
    return [answer for answer in map(json.loads, lines) if answer["chart"] in NAMES]


def main():
    charts, work = pathlib.Path(sys.argv[1]), pathlib.Path(sys.argv[2])
    for name in ("altered-word", "altered-listing"):
        folder = work / name
        answers = copy_charts(charts, folder)
        if name == "altered-word":
            next(answer for answer in answers if answer["chart"] == ALTERED)["beats"][-1] += 1
        else:
            listing = folder / (ALTERED + ".listing")
            listing.write_bytes(listing.read_bytes().replace(b"G", b"F"))
        (folder / "tables.jsonl").write_text("".join(json.dumps(answer) + "\n" for answer in answers))


main()
