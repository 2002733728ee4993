"""The cases of a folder: which of them hold today, the call that each is, and the answer that it states. README.md has the forms."""
import dataclasses
import json
import pathlib
import sys

sys.path.insert(0, str(pathlib.Path(__file__).resolve().parents[1] / "driver"))
import packed

CHARTS = pathlib.Path(__file__).resolve().parents[1] / "charts"
LEFT_OUT = "left out"


@dataclasses.dataclass
class Case:
    """A call of a packed list, and the numbers and the memories that its line should have; None where nothing is stated."""
    file: str
    name: str
    call: bytes
    numbers: list
    memories: list


def unbytes(form):
    if "text" in form:
        return form["text"].encode()
    if "hex" in form:
        return bytes.fromhex(form["hex"])
    return b"".join(unbytes(part) * times for part, times in form["parts"])


def unwords(form):
    return [word for one in form for word in ([one[0] + one[1] * k for k in range(one[2])] if isinstance(one, list) else [one])]


def flat(case, answer):
    song = unbytes(case["song"])
    return (packed.pack_call("flat", [len(song), case["lent"]], song),
            [answer["refusal"], answer["line"], answer["length"]], [list(unbytes(answer["copy"]))])


def concert(case, answer):
    beats = unwords(case["beats"])
    return (packed.pack_call("concert", [case["move"], len(beats), case["lent"]], packed.words(4, beats)),
            [answer["refusal"]], [unwords(answer["second"])])


def cues(case, answer):
    sections, measures = unwords(case["sections"]), unwords(case["measures"])
    return (packed.pack_call("cues", [len(sections), len(measures), case["lent"]], packed.words(8, sections), packed.words(4, measures)),
            [answer["refusal"], answer["end"]], [unwords(answer["starts"])])


def find(case, answer):
    measures = unwords(case["measures"])
    return (packed.pack_call("find", [case["beat"], len(measures)], packed.words(4, measures)),
            [answer["refusal"], answer["place"], answer["probes"]], [])


def song_of(case):
    """A chart that the case holds, or one of the project's that it names."""
    return unbytes(case["song"]) if "song" in case else (CHARTS / f"{case['name']}.sc").read_bytes()


def read(case, answer):
    """Of document 01's answer only the numbers are stated, and long tables are left out."""
    tables = [answer.get(table, LEFT_OUT) for table in packed.TABLES]
    return (packed.pack(song_of(case)), [answer["refusal"], answer["line"], *answer["counts"]],
            [None if table == LEFT_OUT else unwords(table) for table in tables])


def count(case, answer):
    song = song_of(case)
    return packed.pack_call("count", [len(song)], song), [answer["refusal"], answer["line"], *answer["counts"]], []


# For each file the calls that its cases are, each with the numbers that its line has; none where no landing has brought the call yet.
CALLS = {
    "flat": [("flat", 3, flat)],
    "concert": [("concert", 1, concert)],
    "cues": [("cues", 2, cues)],
    "find": [("find", 3, find)],
    **{name: [("read", 6, read), ("count", 6, count)]
       for name in ("read-2", "read-4", "read-6", "read-14", "read-all", "charts-changed")},
    "surtitles": [],
    "evening": [],
    "fix": [],
    "compare": [],
}


def answer_today(case, landed):
    """The answer that holds when of 2, 4, 6 and 14 these have landed; None where the case says nothing of that."""
    depends = set(case.get("depends", ()))
    stated = case.get("landed", "all")
    if isinstance(stated, list):
        return case["answer"] if depends & landed == set(stated) else None
    if stated == "base":
        return None if depends & landed else case["answer"]
    if depends <= landed:
        return case["answer"]
    return None if depends & landed else case.get("base")


def of_file(path, landed, calls):
    """The calls of a file's cases that hold and can be made, and a sentence on how many those are; `calls` are those to be had, with the
    numbers that their lines have."""
    if path.stem not in CALLS:
        sys.exit(f"requests: FAILED: no form is known for {path.name}")
    rows = [json.loads(line) for line in path.read_text().splitlines()]
    made = [make for call, numbers, make in CALLS[path.stem] if calls.get(call) == numbers]
    held = [(row, answer) for row in rows if made and (answer := answer_today(row, landed)) is not None]
    by = f", by {' and '.join(make.__name__ for make in made)}" if made else ": its call has not landed"
    return ([Case(path.stem, f"{row['name']} ({make.__name__})", *make(row, answer)) for row, answer in held for make in made],
            f"{path.stem}: {len(held)} of {len(rows)} cases{by}")


def difference(case, found):
    """How an answer, its numbers and memories, is not the case's, or None."""
    numbers, memories = found
    if numbers != case.numbers:
        return f"expected {case.numbers}, found {numbers}"
    if len(memories) != len(case.memories):
        return f"{len(case.memories)} memories expected, {len(memories)} found"
    for place, (expected, words) in enumerate(zip(case.memories, memories)):
        if expected is not None and expected != words:
            at = next((k for k, (one, other) in enumerate(zip(expected, words)) if one != other), min(len(expected), len(words)))
            return f"memory {place}, word {at}: expected {expected[at:at + 4]} of {len(expected)}, found {words[at:at + 4]} of {len(words)}"
    return None


def spoiled(case, found):
    """The found answer altered in each of its parts that the case states: every number, the last word of every memory, its length."""
    numbers, memories = found
    for place in range(len(numbers)):
        yield [*numbers[:place], numbers[place] + 1, *numbers[place + 1:]], memories
    for place, words in enumerate(memories):
        if case.memories[place] is None:
            continue
        yield numbers, [*memories[:place], [*words, 0], *memories[place + 1:]]
        if words:
            yield numbers, [*memories[:place], [*words[:-1], words[-1] ^ 1], *memories[place + 1:]]
