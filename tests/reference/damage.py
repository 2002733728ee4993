"""Damage to good charts: lines, numbers, characters and bytes changed, most of it near the edge of some rule."""
import re

EDGE_NUMBERS = ["0", "1", "2", "3", "20", "21", "26", "27", "32", "33", "100", "101", "400", "401", "9999", "10000",
                "00", "01", "007", "65535", "65536", "99999999999999999999", "-1", ""]
ODD_LINES = ["@bpm 120", "@bpm 401", "@time 3/4", "@time 4/8", "@time 33/4", "@name", "@name x", "@capo 0", "@capo 21", "@Bpm 3",
             "@", "@ name x", "@original Cb", "@original C7", "$1", "$2", "$01", "$0", "$10000", "$", "$1 x", "$olo", "--", "---",
             "--x", "A;G", "A", "%", "_", "=", "A =", "A = G", ";", ":", "H", "[A]2", "[A] 2", "[A]1", "[", "[[A]2]2", "$1;A",
             "_repeat 2", "_repeat 1", "_repeat", "_Repeat 2", "_repeat2", "_cutStart 1", "_cutStart 0", "_cutStart 1-0",
             "_cutStart -", "_cutEnd -1", "_cutEnd 1-", "_cutEnd 9999-9999", "_before A", "_before", "_before A:B",
             "_before $1", "_before A$", "_before %", "_after A B C D E", "_after [A]2", "_after H", "_A", "__", "_1", "_é",
             "Go _2", "Go _0", "Go", "_2", "V", "!x", "n" * 51, "n" * 50 + " !x", "é" * 51, "A" + "x" * 32, "Abm" + "€" * 10,
             "Abm" + "€" * 11, "@end " + "é" * 101, "@end " + "é" * 100, "\f", "\u00a0", " ", "#", "@warning \t"]
ODD_CHARACTERS = " \t;:[]%_=$@!-*#0123456789AHbm\r\n\u00a0é"
BAD_BYTES = [b"\x00", b"\xff", b"\x80", b"\xc0\x80", b"\xc1\xbf", b"\xe0\x80\x80", b"\xed\xa0\x80", b"\xf4\x90\x80\x80",
             b"\xf5\x80\x80\x80", b"\xe2\x82", b"\xf0\x9f\x8e", b"\xc3", b"\xe2\n", b"\xf0\x8f\xbf\xbf",
             b"\xed\x9f\xbf", b"\xf4\x8f\xbf\xbf", b"\xef\xbf\xbf", b"\xef\xbb\xbf"]


def delete_line(random, lines):
    return lines[:(at := random.randrange(len(lines)))] + lines[at + 1:]


def double_line(random, lines):
    at = random.randrange(len(lines))
    return lines[:at + 1] + lines[at:]


def insert_line(random, lines):
    at = random.randrange(len(lines) + 1)
    return lines[:at] + [random.choice(ODD_LINES)] + lines[at:]


def replace_line(random, lines):
    at = random.randrange(len(lines))
    return lines[:at] + [random.choice(ODD_LINES)] + lines[at + 1:]


def swap_lines(random, lines):
    lines = list(lines)
    first, second = random.randrange(len(lines)), random.randrange(len(lines))
    lines[first], lines[second] = lines[second], lines[first]
    return lines


def move_block(random, lines):
    blocks = "\n".join(lines).split("\n\n")
    random.shuffle(blocks)
    return "\n\n".join(blocks).split("\n")


def change_number(random, lines):
    """Some number becomes one at the edge of a range, or one more or less."""
    lines = list(lines)
    places = [(at, match) for at, line in enumerate(lines) for match in re.finditer("[0-9]+", line)]
    if not places:
        return lines
    at, match = random.choice(places)
    number = random.choice(EDGE_NUMBERS)
    if random.random() < 0.4:
        number = str(int(match.group()) + random.choice([-1, 1]))
    lines[at] = lines[at][:match.start()] + number + lines[at][match.end():]
    return lines


def drop_count(random, lines):
    """Some lyric line loses its count."""
    places = [at for at, line in enumerate(lines) if re.search(r"[ \t]_[0-9]+$", line)]
    if not places:
        return lines
    lines = list(lines)
    at = random.choice(places)
    lines[at] = re.sub(r"[ \t]+_[0-9]+$", "", lines[at])
    return lines


def change_character(random, lines):
    text = "\n".join(lines)
    at = random.randrange(len(text) + 1)
    kept = at + random.choice([0, 0, 1])
    added = random.choice(ODD_CHARACTERS) if random.random() < 0.8 else ""
    return (text[:at] + added + text[kept:]).split("\n")


def cut_off(random, lines):
    text = "\n".join(lines)
    return text[:random.randrange(len(text) + 1)].split("\n")


LINE_DAMAGE = [delete_line, double_line, insert_line, insert_line, replace_line, swap_lines, move_block, change_number,
               change_number, change_number, drop_count, drop_count, change_character, change_character, cut_off]


def damage_lines(random, lines):
    for _ in range(random.choice([1, 1, 1, 2, 3])):
        lines = random.choice(LINE_DAMAGE)(random, lines) if lines else lines
    return lines


def damage_bytes(random, chart):
    """A bit flipped, or a piece that is no whole character, or just is one, put in."""
    at = random.randrange(len(chart) + 1)
    if chart and random.random() < 0.3:
        at = min(at, len(chart) - 1)
        return chart[:at] + bytes([chart[at] ^ 1 << random.randrange(8)]) + chart[at + 1:]
    return chart[:at] + random.choice(BAD_BYTES) + chart[at + random.choice([0, 1]):]
