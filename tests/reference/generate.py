#!/usr/bin/env python3
"""Makes charts, good and damaged, near the edge of every rule, as a packed list on standard output.

usage: generate.py --seed N --count K
The same seed and count give the same list. Each chart is preceded by a line `LENGTH KEYS SECTIONS MEASURES BEATS ITEMS`:
its bytes, and the lengths of the five tables to lend, `-` for one large enough.
"""
import argparse
import random as randomness
import sys

sys.dont_write_bytecode = True  # nothing is written beside the sources

import damage
import edges
import songs

LARGE_SHARE = 0.03
EDGE_SHARE = 0.42
DAMAGED_SHARE = 0.5   # of the songs
BAD_BYTES_SHARE = 0.05
LENGTHS_SHARE = 0.15


def make_chart(random):
    kind = random.random()
    if kind < LARGE_SHARE:
        chart = random.choice(edges.LARGE)(random)
    elif kind < LARGE_SHARE + EDGE_SHARE:
        chart = random.choice(edges.COMMON)(random)
    else:
        chart = songs.write_song(random, songs.make_song(random))
        if random.random() < DAMAGED_SHARE:
            chart = damage.damage_lines(random, chart)
    if not isinstance(chart, bytes):
        chart = songs.encode(random, chart)
    if random.random() < BAD_BYTES_SHARE:
        chart = damage.damage_bytes(random, chart)
    return chart


def make_lengths(random):
    """Mostly tables large enough; else each large enough, or of some length that is small or at an edge."""
    if random.random() > LENGTHS_SHARE:
        return ["-"] * 5
    keys = random.choice(["-", "-", "0", "7", "8", "8", "9"])
    return [keys] + [random.choice(["-", "-", "0", "1", "2", "3", "4", "8", "16", "17", "64", "200", "600"]) for _ in range(4)]


def main():
    parser = argparse.ArgumentParser()
    parser.add_argument("--seed", type=int, required=True)
    parser.add_argument("--count", type=int, required=True)
    arguments = parser.parse_args()
    for number in range(arguments.count):
        random = randomness.Random(f"{arguments.seed} {number}")
        chart = make_chart(random)
        header = " ".join([str(len(chart)), *make_lengths(random)]) + "\n"
        sys.stdout.buffer.write(header.encode() + chart)


main()
