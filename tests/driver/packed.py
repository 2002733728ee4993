#!/usr/bin/env python3
"""Packed lists of calls and the answers to them; README.md has the forms.

usage: packed.py CHART... > LIST
"""
import pathlib
import struct
import subprocess
import sys

TABLES = ["keys", "sections", "measures", "beats", "items"]
LARGE = ["-"] * len(TABLES)
WORD = {1: "B", 4: "I", 8: "Q"}


def pack(chart, lengths=()):
    """A chart to be read, with tables of these lengths."""
    return " ".join(str(word) for word in [len(chart), *lengths]).encode() + b"\n" + chart


def words(size, numbers):
    """The words of given memory, each of so many bytes."""
    return struct.pack(f"<{len(numbers)}{WORD[size]}", *numbers)


def pack_call(name, header, *given):
    """Another call: its name, the words of its header, and its given memory."""
    return " ".join(str(word) for word in [name, *header]).encode() + b"\n" + b"".join(given)


def unpacked(data):
    """The charts of a list that has nothing else, each with the words of its header."""
    at = 0
    while at < len(data):
        end = data.index(b"\n", at)
        header = data[at:end].decode().split()
        at = end + 1 + int(header[0])
        yield header, data[end + 1:at]


def answer(line):
    """Of a line its numbers behind the call's own number, and the words of each memory that it shows."""
    head, *memories = line.split("|")
    return [int(word) for word in head.split()[1:]], [[int(word) for word in memory.split()] for memory in memories]


def run(command, packed):
    """The answers to a packed list; the command, a list of words, must come to its end."""
    done = subprocess.run(command, input=packed, stdout=subprocess.PIPE, check=True)
    return [answer(line) for line in done.stdout.decode().splitlines()]


if __name__ == "__main__":
    for name in sys.argv[1:]:
        sys.stdout.buffer.write(pack(pathlib.Path(name).read_bytes()))
