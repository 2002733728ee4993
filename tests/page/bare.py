"""bare.py < LIST > LIST: the charts of a packed list, each to be read into tables with room for any song, as the page has them, and then to be
copied flat into a buffer with room for any copy."""
import pathlib
import sys

sys.path.append(str(pathlib.Path(__file__).parent.parent / "driver"))
import packed

for _, chart in packed.unpacked(sys.stdin.buffer.read()):
    sys.stdout.buffer.write(packed.pack(chart) + packed.pack_call("flat", [len(chart), "-"], chart))
