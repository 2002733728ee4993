#!/usr/bin/env python3
"""Checks the form of the answers to a packed list: one line for each chart, and every refusal from 0 to 18 met.

usage: answers.py COUNT [--histogram] < ANSWERS
"""
import collections
import re
import sys

FORM = re.compile(r"\d+( \d+){6}( \|( \d+)*){5}")
LAST_REFUSAL = 18


def main():
    count = int(sys.argv[1])
    lines = sys.stdin.read().splitlines()
    faults = [] if len(lines) == count else [f"{len(lines)} answers to {count} charts"]
    histogram = collections.Counter()
    for number, line in enumerate(lines):
        if not FORM.fullmatch(line) or int(line.split()[0]) != number:
            faults.append(f"answer {number} has the wrong form: {line[:100]}")
            continue
        histogram[int(line.split()[1])] += 1
    for refusal in range(LAST_REFUSAL + 1):
        if not histogram[refusal]:
            faults.append(f"no chart met refusal {refusal}")
    if "--histogram" in sys.argv:
        for refusal, charts in sorted(histogram.items()):
            print(f"refusal {refusal:2}: {charts:5} charts")
    for fault in faults:
        print(fault)
    sys.exit(1 if faults else 0)


main()
