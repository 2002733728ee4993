"""Charts made for one rule each, at its edge. Every function gives the lines of a chart, or its bytes."""

TEXT_LIMIT = 65536
MEASURE_LIMIT = 65535
COUNT_LIMIT = 9999
PATTERN_PIECES = ["A", "G", "Cb7", "Abm7", "%", "_", "=", " ", ";", ";", ":", "\n", "[", "]2", "]2", "]1", "]", "]10000",
                  "]02", "] 2", "$1", "$2", "$0", "H", "A=", "G%", "C$1", "Cmaj7", "Bb", "maj", "%%", "\t"]
SECTION_LINES = ["@bpm 100", "@bpm 0", "@time 3/4", "@time 4/4", "@name x", "@bpm x", "A;G", "A", "A;G;C", "$1", "_ A", "_", "A B C",
                 "_repeat 2", "_repeat x", "_cutStart 1", "_cutStart -1", "_cutEnd 1", "_cutEnd -2", "_before A", "_before H",
                 "_after A;%", "_x", "--", "Go _1", "Go _2", "Go"]


def pattern_text(random):
    """A text of random pieces, in a definition, a section or a lead-in."""
    pieces = [random.choice(PATTERN_PIECES) for _ in range(random.choice([1, 2, 3, 4, 5, 6, 8, 12]))]
    text = "".join(pieces)
    place = random.random()
    if place < 0.4:
        return ["$1", "A;G", "", "$2", *text.split("\n"), "", "V", "$2"]
    if place < 0.8:
        return ["$1", "A;G", "", "V", *text.split("\n")]
    return ["V", "A", "_before " + text.replace("\n", ";").replace(":", random.choice([":", ";"]))]


def good_text_mostly(random):
    """Items in a row, the separators sometimes one too many or few."""
    items = ["A", "A G", "Em =", "_ A", "[A]2", "[A;G]3", "[ A : G ]2", "[A\nG]2", "A;%", "A _ % =", "$1"]
    separators = [";", "\n", ":", "\n:", ":\n", "\n:\n", " ; ", " : "] * 4 + [";\n", "\n;", ":\n:", ";:", " ", ""]
    text = random.choice(items)
    for _ in range(random.choice([1, 2, 3])):
        text += random.choice(separators) + random.choice(items)
    if random.random() < 0.6:
        return ["$1", "A;G", "", "$2", *text.split("\n"), "", "V", "$2", random.choice(["_repeat 2", "_cutEnd -1"])]
    return ["V", *text.replace("$1", "G").split("\n")]


def section_lines(random):
    """Lines of a section in any order."""
    lines = ["$1", "A;G", ""] if random.random() < 0.5 else []
    for _ in range(random.choice([1, 1, 2])):
        lines += ["V"] + [random.choice(SECTION_LINES) for _ in range(random.choice([0, 1, 2, 3, 4, 6]))] + [""]
    return lines


def section_lines_in_order(random):
    """Lines of a section in their order, now and then one moved."""
    lines = random.sample(["@bpm 100", "@time 3/4", "@time 1/4"], random.choice([0, 1, 2]))
    lines.append(random.choice(["A;G", "A;G;C;Am", "$1"]))
    lines += random.sample(["_repeat 3", "_cutStart 1", "_cutStart 1-2", "_cutEnd -4", "_cutEnd -3", "_before A;[%]2", "_after A"],
                           random.choice([0, 1, 2, 3]))
    if random.random() < 0.5:
        lines += ["--"] + random.sample(["Go _1", "Go", "--", "Go _2", "x _4"], random.choice([0, 1, 2]))
    if random.random() < 0.4:
        lines.insert(random.randrange(len(lines) + 1), lines.pop(random.randrange(len(lines))))
    return ["$1", "A;G;E", "", "V", *lines]


def references(random):
    """Definitions that refer to each other, rightly or wrongly."""
    lines = []
    last = random.choice([2, 3, 4, 5])
    for number in range(1, last + 1):
        texts = [["A"], ["[A]2"], ["A;%"], ["%;A"], []]
        if number > 1 or random.random() < 0.05:
            earlier = number > 1 and random.random() < 0.9
            other = random.randrange(1, number) if earlier else random.choice([number, number + 1, 9])
            texts = [["A;G"], [f"${other}"], [f"${other};A"], [f"[${other}]2"], [f"A;[A;${other}]2"], [f"A:${other}", "$1"]]
        lines += [f"${number}", *random.choice(texts), ""]
    named = random.randrange(1, last + 1) if random.random() < 0.95 else 8
    return lines + ["V", f"${named}"] + random.choice([[], ["_repeat 2"], ["--", "Go _2"]])


def definitions(random):
    """About 26 definitions, some number twice, some head bad."""
    count = random.choice([25, 26, 26, 27, 28])
    numbers = random.sample(range(1, 60), count)
    heads = [f"${number}" for number in numbers]
    if random.random() < 0.4:
        heads[random.randrange(count)] = random.choice([heads[0], "$0", "$01", "$10000", "$9999", "$1 x", "$", "$ 5"])
    lines = []
    for head in heads:
        lines += [head, "A"] + [""]
    return lines + ["V", f"${numbers[0]}"]


def settings(random):
    """Keys with settings at the edge of their ranges."""
    edges = {"name": ["x" * 100, "x" * 101, "é" * 100, "é" * 101, "𝄞" * 100, "𝄞" * 101, ""],
             "original": ["A", "C#m", "Cb", "H", "a", "A ", "A#m", "B#", "Gbm"],
             "capo": ["0", "1", "20", "21", "01", "x"], "bpm": ["0", "1", "400", "401", "00", "-1", "4000000000", "12 0"],
             "time": ["1/4", "32/4", "33/4", "0/4", "4/8", "4", "4/4 ", "4 /4", "/4", "04/4", "4/44", "4/4x"],
             "end": ["***", "!"], "Name": ["x"], "tempo": ["3"], "": ["name"]}
    chosen = [random.choice(sorted(edges)) for _ in range(random.choice([1, 2, 3]))]
    lines = [f"@{key}{random.choice([' ', '  ', chr(9)])}{random.choice(edges[key])}" for key in chosen]
    if random.random() < 0.15:
        lines.append(random.choice(["Verse", "$1", "_repeat 2", "--"]))
    return lines + ["", "V" + random.choice(["", "!", "!c"]), "A"]


def names(random):
    name = random.choice(["n", "é", "𝄞"]) * random.choice([0, 1, 49, 50, 51])
    header = random.choice(["", " ", "\t"]) + name + random.choice(["", "!", " !", "!x", "! "])
    return [header or "V", random.choice(["A", "A" + "x" * 31, "A" + "x" * 32, "Abm" + "€" * 10 + "x", "Abm" + "€" * 10 + "xy"])]


def no_section(random):
    return random.choice([[], [""], ["", " ", "\t"], ["@name x"], ["@bpm 3", "", "$1", "A"], ["$1"], ["$1", "$2"], ["@name x", "", ""],
                          ["$1", "$1"], ["@bpm 401"], ["$1", "H"]])


def limit(random):
    """A song of about 65,535 measures before its cuts; most of them are cut away again, so that few are written."""
    past = random.choice([-1, 0, 0, 1, 1, 2])
    lines = ["@time " + random.choice(["1/4", "2/4"]), ""]
    whole = MEASURE_LIMIT // COUNT_LIMIT
    for _ in range(whole):
        cut = random.choice(["_cutStart", "_cutEnd"]) + f" {COUNT_LIMIT - random.choice([1, 1, 1, 2])}"
        lines += ["V", f"[A]{COUNT_LIMIT}", cut, ""]
    rest = MEASURE_LIMIT - whole * COUNT_LIMIT + past
    lines += ["V", f"[A]{rest - 2}", f"_cutStart {rest - 3}", "_before A", "_after A"]
    if random.random() < 0.3:
        return ["$1", ""] + lines + ["", "V", "$1"] + random.choice([[], ["_before A"], ["_repeat 2"]])
    return lines


def long_song(random):
    """A few of these are written out whole."""
    return ["@time 1/4", "", "V", "[A]9999", "_repeat 6", f"_after [G]{MEASURE_LIMIT - 6 * COUNT_LIMIT + random.choice([0, 1])}"]


def vast_counts(random):
    """Counts far past 32 bits, in a file that is nearly full."""
    inner = ";".join(["A"] * random.choice([100, 10920]))
    outer = "[" + ";".join(["$1"] * random.choice([100, 7280])) + "]9999"
    lines = ["$1", inner, "", "$2", outer, ""]
    for _ in range(random.choice([1, 5, 1150])):
        lines += ["V", random.choice(["$2", "$2", "A"]), "_repeat 9999", ""]
    return lines


def cuts(random):
    """Cuts about as large as the pattern."""
    time = random.choice([1, 2, 3, 4, 6])
    measures = random.choice([1, 2, 3, 4])
    texts = ["A", "G"] + (["Em ="] if time % 2 == 0 else [])
    lines = [f"@time {time}/4", "", "V", ";".join(random.choice(texts) for _ in range(measures))]
    repeat = random.choice([1, 2, 3])
    if repeat > 1:
        lines.append(f"_repeat {repeat}")
    beats = time * measures * repeat
    for name in random.choice([["cutStart"], ["cutEnd"], ["cutStart", "cutEnd"], ["cutEnd", "cutStart"]]):
        beat = max(1, random.choice([1, 2, beats // 2, beats - 1, beats, beats + 1]))
        measure = max(1, random.choice([1, measures * repeat - 1, measures * repeat]))
        lines.append(f"_{name} " + random.choice([f"-{beat}", f"{measure}", f"{measure}-{random.choice([1, time])}"]))
    return lines + random.choice([[], ["_before A"], ["_after G;G"]])


def lyrics(random):
    """One to three sections of one to three measures, with counts that may or may not be there and sum."""
    lines = ["$1", ""]
    for _ in range(random.choice([1, 2, 3])):
        measures = random.choice([1, 2, 3])
        lines += ["V", random.choice([";".join(["A"] * measures)] * 5 + ["$1"])]
        chosen = random.choice([0, 1, 2])
        counts = [f" _{measures}", f" _{measures}", " _1", "\t_2", "_2", " _0", " _01", " _10000", " _9 _1", "", " _1 "]
        words = ["Go", "***a***", ":::a:::", "***", "***b:::", "******", "*** é ***"]
        if chosen:
            lines += ["--"] + [random.choice(words) + random.choice(counts) for _ in range(chosen)]
        lines.append("")
    return lines


def time_and_repeat(random):
    """Measures that may not fit their time, and % that may stand first."""
    pool = ["A", "A G", "A G E", "A G E D", "%", "% A", "_", "_ %", "A = =", "A =", "[%;A]2", "[A;%]2",
            " ".join(["A"] * 32), " ".join(["A"] * 33)]
    lines = [f"@time {random.choice([3, 4, 6, 12, 32])}/4", "", "$1", random.choice(pool), "", "$2", "A;$1", "", "V"]
    lines += [random.choice([random.choice(pool), "A;" + random.choice(pool), "$1", "$2"])]
    if random.random() < 0.4:
        lines.append("_before " + random.choice(pool))
    if random.random() < 0.3:
        lines.append("_after " + random.choice(pool))
    return lines


def full_file(random):
    """Bytes at the size limit, and one past it; padded by blanks, lyrics or bytes that aren't characters."""
    length = TEXT_LIMIT + random.choice([0, 0, 1, 1, 1, 2, 5000])
    start = random.choice([b"V\nA\n--\n", b"V\nA\n", b"@name x\n\n", b""])
    padding = random.choice([b" ", b"\n", b"x", b"\xff", b"\r"])
    return start + padding * (length - len(start))


def many_sections(random):
    """About as many sections, or items, as the listing program has room for."""
    block = random.choice([["V", "A"], ["V", "A", "--", "Go _1"], ["V", "A;G", "--", "Go _1", "Go _1"]])
    return (block + [""]) * random.choice([511, 512, 513])


COMMON = [pattern_text, pattern_text, good_text_mostly, good_text_mostly, section_lines, section_lines,
          section_lines_in_order, section_lines_in_order, references, references, references, definitions, settings, settings,
          names, no_section, cuts, cuts, lyrics, lyrics, lyrics, time_and_repeat, time_and_repeat, limit]
LARGE = [long_song, vast_counts, vast_counts, full_file, full_file, full_file, full_file, many_sections]
