"""Well-formed random songs: built as plain values, counted by the generator itself, and written as lines of text.

An item is ("measure", [positions]), ("loop", items, times) or ("reference", number).
"""

BASES = ("A A# Ab Am A#m Abm B Bb Bm Bbm C C# Cm C#m D Db D# Dm Dbm D#m "
         "E Eb Em Ebm F F# Fm F#m G Gb G# Gm Gbm G#m").split()
EXTENSIONS = ["7", "maj7", "sus4", "b7", "#m", "m7b5", "/E", "9#11", "maj", "aj", "majaj", "ma7", "!", "@1", "-2", "b", "#", "m",
              "é", "♯9", "𝄞", "\u00a0", "\u2028x", "x" * 31, "y" * 30, "€" * 10 + "z",
              "maj" + "x" * 28, "maj" + "x" * 29]
SLIPS = ["%", "_", "=", "$", "$1", "=7", "7%", "maj_"]
NAMES = ["Verse", "Chorus", "V", "Intro", "--", "_repeat 2", "[A]2", ";", "Näme", "\ufeffV", "#1", "Two words",
         "n" * 50, "é" * 50, "𝄞" * 50, "tab\tin it"]
WORDS = ["Go", "Living easy", "***In***", ":::Out:::", "*** In ***", "******", "*******", ":::x***", "_", "_9", "Go _9",
         "Ünder", "--", "@bpm 3", "$1", "_repeat 2", "a\tb", "Go_2", "歌"]
TIMES = [4, 4, 4, 3, 6, 12, 2, 1, 5, 8, 32, 31, 24]
PLAYED_LIMIT = 20000  # songs with more measures are written without counts


def divisors(time):
    return [size for size in range(1, time + 1) if time % size == 0]


class Definition:
    def __init__(self, number, items):
        self.number = number
        self.items = items


class Section:
    def __init__(self, name):
        self.name = name
        self.keys = []
        self.time = 4
        self.items = []
        self.named = None       # the definition that is its whole pattern
        self.modifiers = {}
        self.lyrics = []


class Song:
    def __init__(self):
        self.keys = []
        self.time = 4
        self.definitions = []
        self.sections = []

    def definition(self, number):
        return next((one for one in self.definitions if one.number == number), None)


def make_chord(random):
    """A base and an extension of at most 31 bytes, now and then with a slip in it."""
    extension = random.choice(EXTENSIONS) if random.random() < 0.4 else ""
    return random.choice(BASES) + extension[:31] + (random.choice(SLIPS) if random.random() < 0.002 else "")


def make_measure(random, time, chord_before):
    size = random.choice(divisors(time)[:random.choice([1, 2, 3, 9])])
    removed = random.randrange(size) if random.random() < 0.2 else 0
    positions = []
    for _ in range(size - removed):
        kind = random.random()
        if kind < 0.15 and (chord_before or random.random() < 0.03):
            positions.append("%")
        elif kind < 0.25:
            positions.append("_")
        else:
            positions.append(make_chord(random))
            chord_before = True
    return ("measure", positions + ["="] * removed), chord_before


def has_loop(items):
    return any(item[0] == "loop" for item in items)


def has_reference(items):
    return any(item[0] == "reference" or (item[0] == "loop" and has_reference(item[1])) for item in items)


def holds_chord(song, items):
    """True if some position is a chord, references put in."""
    for item in items:
        if item[0] == "measure":
            found = any(position not in ("%", "_", "=") for position in item[1])
        else:
            found = holds_chord(song, item[1] if item[0] == "loop" else song.definition(item[1]).items)
        if found:
            return True
    return False


def choose_reference(random, song, in_loop):
    fit = [one for one in song.definitions
           if one.items and not has_reference(one.items) and not (in_loop and has_loop(one.items))]
    return ("reference", random.choice(fit).number) if fit else None


def make_items(random, song, time, references, in_loop=False, chord_before=False):
    items = []
    for _ in range(random.choice([1, 1, 2, 2, 3, 4, 6])):
        kind = random.random()
        reference = choose_reference(random, song, in_loop) if references and kind < 0.2 else None
        if reference:
            items.append(reference)
            chord_before = chord_before or holds_chord(song, [reference])
        elif kind > 0.85 and not in_loop:
            inner = make_items(random, song, time, references, True, chord_before)
            items.append(("loop", inner, random.choice([2, 2, 3, 4, 9])))
            chord_before = chord_before or holds_chord(song, inner)
        else:
            measure, chord_before = make_measure(random, time, chord_before)
            items.append(measure)
    return items


def play(song, items, time):
    """The beats of each measure, or None if there are too many or one doesn't fit the time."""
    beats = []
    for item in items:
        if item[0] == "measure":
            if time % len(item[1]):
                return None
            beats.append(time // len(item[1]) * (len(item[1]) - item[1].count("=")))
            continue
        inner = item[1] if item[0] == "loop" else song.definition(item[1]).items
        row = play(song, inner, time)
        times = item[2] if item[0] == "loop" else 1
        if row is None or len(beats) + len(row) * times > PLAYED_LIMIT:
            return None
        beats += row * times
    return beats


def cut_front(beats, measures, count):
    beats = beats[measures:]
    while beats and count >= beats[0]:
        count -= beats.pop(0)
    return [beats[0] - count] + beats[1:] if beats else []


def play_section(song, section):
    """The beats of each measure after repeat and cuts, with lead-in and tail, or None."""
    row = play(song, section.named.items or [] if section.named else section.items, section.time)
    if row is None:
        return None
    row = row * section.modifiers.get("repeat", 1)
    row = cut_front(row, *section.modifiers.get("cutStart", (0, 0)))
    row = cut_front(row[::-1], *section.modifiers.get("cutEnd", (0, 0)))[::-1]
    before = play(song, section.modifiers.get("before", []), section.time)
    after = play(song, section.modifiers.get("after", []), section.time)
    return None if before is None or after is None else before + row + after


def make_cut(random, measures):
    whole = random.choice([0, 1, 1, 2, max(measures - 1, 0), measures])
    beats = random.choice([0, 1, 2, 3, 5, 9])
    return (whole, beats) if whole or beats else (1, 0)


def make_modifiers(random, song, section):
    empty = section.named is not None and not section.named.items
    if empty and random.random() < 0.9:
        return
    chance = random.choice([0, 0.3, 0.7])
    if random.random() < chance:
        section.modifiers["repeat"] = random.choice([2, 3, 4])
    row = play(song, section.named.items or [] if section.named else section.items, section.time) or []
    for name in ("cutStart", "cutEnd"):
        if random.random() < chance / 2:
            section.modifiers[name] = make_cut(random, len(row))
    if not play_section(song, section) and random.random() < 0.8:
        section.modifiers.pop("cutStart", None)
        section.modifiers.pop("cutEnd", None)
    for name in ("before", "after"):
        if random.random() < chance:
            section.modifiers[name] = make_items(random, song, section.time, False)


def make_pattern(random, song, section):
    fit = [one for one in song.definitions if play(song, one.items or [], section.time) is not None]
    if fit and random.random() < 0.5:
        section.named = random.choice(fit if random.random() < 0.95 else song.definitions)
    else:
        section.items = make_items(random, song, section.time, False)


def make_lyrics(random, song, section, counted):
    total = len(play_section(song, section) or [])
    if not counted or total == 0:
        section.lyrics = [(random.choice(WORDS), 0) for _ in range(random.choice([1, 2, 3]))]
        return
    while total > 0:
        count = min(total, random.choice([1, 2, 4, 8, 9999]))
        section.lyrics.append((random.choice(WORDS), count))
        total -= count


def make_section(random, song):
    section = Section(random.choice(NAMES))
    section.time = song.time
    if random.random() < 0.3:
        section.name += random.choice(["!", "!Comment", "! x ! y"])[:60]
    if random.random() < 0.2:
        section.time = random.choice(TIMES)
        section.keys.append(("time", f"{section.time}/4"))
    if random.random() < 0.2:
        section.keys.append(("bpm", str(random.choice([0, 1, 120, 400]))))
    make_pattern(random, song, section)
    make_modifiers(random, song, section)
    return section


def make_song_keys(random, song):
    free = ["x", "Highway to Hell", "ü" * 100, "𝄞" * 100, "a  b\tc", "@name", "1"]
    settings = {"name": free, "artist": free, "warning": free, "end": free, "original": BASES,
                "capo": ["1", "20", "7"], "bpm": ["0", "400", "120"], "time": None}
    for key in random.sample(sorted(settings), random.choice([0, 1, 2, 4, 8])):
        if key == "time":
            song.time = random.choice(TIMES)
            song.keys.append((key, f"{song.time}/4"))
        else:
            song.keys.append((key, random.choice(settings[key])))


def make_song(random):
    song = Song()
    make_song_keys(random, song)
    numbers = random.sample([1, 2, 3, 9, 10, 99, 9999, 1234], random.choice([0, 1, 2, 4]))
    for number in numbers:
        chord_before = random.random() < 0.05
        items = None if random.random() < 0.1 else make_items(random, song, song.time, True, chord_before=chord_before)
        song.definitions.append(Definition(number, items))
    for _ in range(random.choice([1, 1, 2, 3, 5])):
        song.sections.append(make_section(random, song))
    lyrics = random.choice(["none", "plain", "counted", "counted", "counted"])
    share = random.choice([1, 1, 0.5])
    for section in song.sections:
        if lyrics != "none" and random.random() < share:
            make_lyrics(random, song, section, lyrics == "counted")
    return song


def blanks(random, chance=0.1):
    """Blanks where they may stand but needn't."""
    return random.choice([" ", "\t", "  ", " \t "]) if random.random() < chance else ""


def gap(random):
    """Blanks where at least one must stand."""
    return random.choice([" ", " ", " ", "\t", "   ", "\t "])


def write_separator(random, joined):
    kind = random.random()
    if joined or kind < 0.6:
        return blanks(random) + ";" + blanks(random)
    if kind < 0.85:
        return "\n"
    return random.choice(["", "\n"]) + blanks(random) + ":" + blanks(random) + random.choice(["", "\n"])


def write_items(random, items, joined=False):
    text = ""
    for place, item in enumerate(items):
        if place:
            text += write_separator(random, joined)
        if item[0] == "measure":
            text += "".join((gap(random) if at else "") + position for at, position in enumerate(item[1]))
        elif item[0] == "loop":
            text += "[" + blanks(random) + write_items(random, item[1], joined) + blanks(random) + f"]{item[2]}"
        else:
            text += f"${item[1]}"
    return text


def write_cut(cut):
    return (str(cut[0]) if cut[0] else "") + (f"-{cut[1]}" if cut[1] else "")


def write_section(random, section):
    lines = [section.name]
    lines += [f"@{key}{gap(random)}{setting}" for key, setting in section.keys]
    lines += [f"${section.named.number}"] if section.named else write_items(random, section.items).split("\n")
    modifiers = list(section.modifiers.items())
    random.shuffle(modifiers)
    for name, setting in modifiers:
        if name in ("before", "after"):
            setting = write_items(random, setting, joined=True)
        elif name != "repeat":
            setting = write_cut(setting)
        lines.append(f"_{name}{gap(random)}{setting}")
    if section.lyrics:
        lines.append("--")
        lines += [text + (f"{gap(random)}_{count}" if count else "") for text, count in section.lyrics]
    return lines


def write_song(random, song):
    """The song as lines, each with its free blanks, blocks apart by blank lines."""
    blocks = [[f"@{key}{gap(random)}{setting}"] for key, setting in song.keys]
    if random.random() < 0.8:
        blocks = [sum(blocks, [])] if blocks else []
    for one in song.definitions:
        blocks.append([f"${one.number}"] + (write_items(random, one.items).split("\n") if one.items else []))
    blocks += [write_section(random, section) for section in song.sections]
    lines = [""] * random.choice([0, 0, 0, 2])
    for block in blocks:
        lines += [blanks(random, 0.05) + line + blanks(random, 0.05) for line in block]
        lines += [blanks(random, 0.05) for _ in range(random.choice([1, 1, 2]))]
    return lines


def encode(random, lines):
    """The lines as bytes, with line ends of one kind or of all; a CR is never followed by an empty line's LF."""
    kinds = random.choice([["\n"]] * 4 + [["\r"], ["\r\n"], ["\n", "\r", "\r\n"]])
    text = ""
    for line in lines:
        end = random.choice(kinds)
        if line == "" and end == "\n" and text.endswith("\r"):
            end = "\r"
        text += line + end
    if random.random() < 0.3:
        text = text.rstrip("\r\n")
    return text.encode()
