#!/usr/bin/env python3
"""Compares a reader with the charts and their answers: listing, refusal, line, counts and every table word.

usage: compare.py CHARTS READER LISTING
READER and LISTING are commands: one answers a packed list, the other lists a chart.
Prints one line for each difference and a line with the totals; fails if there is a difference.
"""
import json
import pathlib
import shlex
import subprocess
import sys

sys.path.insert(0, str(pathlib.Path(__file__).resolve().parents[1] / "driver"))
import packed

LEFT_OUT = "left out"


def named(numbers, tables):
    """An answer by the names that tables.jsonl has."""
    refusal, line, *counts = numbers
    return {"refusal": refusal, "line": line, "counts": counts, **dict(zip(packed.TABLES, tables, strict=True))}


def leave_out(expected, found):
    """The expected answer leaves out the measures and beats of a long song; of those only the number of words is compared."""
    for table, place in (("measures", 1), ("beats", 2)):
        if expected[table] == LEFT_OUT and len(found[table]) == expected["counts"][place]:
            found[table] = LEFT_OUT


def shorten(part):
    text = str(part)
    return text if len(text) <= 200 else text[:200] + "..."


def differences(charts, reader, listing):
    """All differences, each a line of text, and the number of charts."""
    expected_answers = [json.loads(line) for line in (charts / "tables.jsonl").read_text().splitlines()]
    names = [answer["chart"] for answer in expected_answers]
    texts = [(charts / f"{name}.sc").read_bytes() for name in names]
    answers = packed.run(reader, b"".join(packed.pack(text) for text in texts))
    found_differences = []
    for expected, text, answer in zip(expected_answers, texts, answers, strict=True):
        name = expected["chart"]
        found = named(*answer)
        leave_out(expected, found)
        for part in ["refusal", "line", "counts", *packed.TABLES]:
            if expected[part] != found[part]:
                found_differences.append(f"{name}: {part}: expected {shorten(expected[part])}, found {shorten(found[part])}")
        listed = subprocess.run(listing, input=text, stdout=subprocess.PIPE, check=True).stdout
        if listed != (charts / f"{name}.listing").read_bytes():
            found_differences.append(f"{name}: listing: found {listed[:200]!r}")
    for extra in sorted({path.stem for path in charts.glob("*.sc")} ^ set(names)):
        found_differences.append(f"{extra}: has a chart or an answer but not both")
    return found_differences, len(names)


def main():
    charts, reader, listing = pathlib.Path(sys.argv[1]), *map(shlex.split, sys.argv[2:4])
    found, count = differences(charts, reader, listing)
    for difference in found:
        print(difference)
    print(f"{count} charts compared, {len(found)} differences")
    sys.exit(1 if found else 0)


main()
