"""Writes a crate of claims: for each chart of tests/charts that is small enough to compute, that the definitions' answer is the one in tables.jsonl.

make.py CHARTS CRATE                        claims of the charts in CHARTS (tests/charts), as the crate in the folder CRATE
make.py CHARTS CRATE --spoil                one claim that is false: one expected word is altered
make.py CHARTS CRATE --packed LIST ANSWERS  claims of generated charts too: a packed list and the second reader's answers to it
"""
import json
import pathlib
import sys

sys.path.insert(0, str(pathlib.Path(__file__).resolve().parents[1] / "driver"))
import packed

LARGEST_CHART = 2000  # bytes
LARGEST_SONG = 1200  # beats
LARGEST_GENERATED_CHART = 400
LARGEST_GENERATED_SONG = 200
CHARTS_A_FILE = 100

HEAD = """-- Charts and their answers, claimed of the definitions.
use Rattle.std.specs.Prelude.{◌≡◌, refl, [], ◌∷◌}
use Rattle.songcode.specs.Bytes.{ascii}
use Rattle.songcode.specs.Answer.Answer.{answer, refused, accepted}
"""
# Only the text that is too long is written by it.
REPLICATE = "use Rattle.std.proofs.Math.ListN.{replicate}\n"

LARGE = {"keys": 8, "sections": 65536, "measures": 65535, "beats": 2097120, "items": 65536}
TOO_LONG = 65537

ESCAPES = {ord('"'): '\\"', ord("\\"): "\\\\", 9: "\\t", 10: "\\n", 13: "\\r"}


def numbers(words):
    return "(" + "".join(f"{w} ∷ " for w in words) + "[])"


def room(lengths):
    return "(record { " + "; ".join(f"{n} = {lengths[n]}" for n in packed.TABLES) + " })"


def text(data):
    if all(32 <= b < 127 or b in (9, 10, 13) for b in data):
        return '(ascii "' + "".join(ESCAPES.get(b, chr(b)) for b in data) + '")'
    return numbers(data)


def expected(row):
    if row["refusal"]:
        return f"refused {row['refusal']} {row['line']}"
    return "accepted (record { " + "; ".join(f"{n} = {numbers(row[n])}" for n in packed.TABLES) + " })"


def computable(row, data):
    return len(data) <= LARGEST_CHART and row["counts"][2] <= LARGEST_SONG and isinstance(row["beats"], list)


def charts_in(charts):
    for line in (charts / "tables.jsonl").read_text().splitlines():
        row = json.loads(line)
        data = (charts / (row["chart"] + ".sc")).read_bytes()
        if computable(row, data):
            yield row, data


def tight(row):
    """Tables exactly long enough, and each one word too short."""
    enough = {n: len(row[n]) for n in packed.TABLES}
    yield "exactly enough", enough, expected(row)
    for n in packed.TABLES:
        if enough[n]:
            yield f"{n} too short", dict(enough, **{n: enough[n] - 1}), "refused 18 0"


def claims(charts):
    """Each claim: a name, the room, the text and the answer."""
    tightened = False
    for row, data in charts_in(charts):
        yield row["chart"], LARGE, text(data), expected(row)
        if row["items"] and not tightened:
            tightened = True
            for name, lengths, answer in tight(row):
                yield f"{row['chart']}, {name}", lengths, text(data), answer
    yield "over-long", LARGE, f"(replicate {TOO_LONG} 65)", "refused 1 0"


def lengths_in(header):
    given = dict(zip(packed.TABLES, header[1:]))
    return {n: LARGE[n] if given.get(n, "-") == "-" else int(given[n]) for n in packed.TABLES}


def generated(listed, answers):
    """Charts that nobody wrote by hand, with the answers of the second reader."""
    charts = packed.unpacked(listed.read_bytes())
    for number, ((header, data), line) in enumerate(zip(charts, answers.read_text().splitlines(), strict=True)):
        (refusal, place, _, _, beats, _), tables = packed.answer(line)
        if len(data) > LARGEST_GENERATED_CHART or beats > LARGEST_GENERATED_SONG:
            continue
        row = {"refusal": refusal, "line": place, **dict(zip(packed.TABLES, tables, strict=True))}
        yield f"generated {number}", lengths_in(header), text(data), expected(row)


def spoiled(charts):
    """One claim that is false: a beat's head bit is turned over."""
    row, data = next((row, data) for row, data in charts_in(charts) if row["beats"])
    row = dict(row, beats=[row["beats"][0] ^ 16] + row["beats"][1:])
    yield row["chart"], LARGE, text(data), expected(row)


def main():
    charts, crate = pathlib.Path(sys.argv[1]), pathlib.Path(sys.argv[2])
    rows = list(spoiled(charts) if "--spoil" in sys.argv else claims(charts))
    if "--packed" in sys.argv:
        rows += generated(pathlib.Path(sys.argv[4]), pathlib.Path(sys.argv[5]))
    (crate / "src").mkdir(parents=True)
    (crate / "specs").mkdir()
    (crate / "src" / "lib.rt").write_text("// Charts and their answers, in specs/, and no code.\n#![tactic(auto)]\n")
    modules = []
    for start in range(0, len(rows), CHARTS_A_FILE):
        here = rows[start : start + CHARTS_A_FILE]
        lines = [HEAD + REPLICATE * any(data.startswith("(replicate") for _, _, data, _ in here)]
        for number, (name, lengths, data, answer) in enumerate(here, start):
            lines.append(f"-- {name}")
            lines.append(f"chart_{number} : answer {room(lengths)} {data} ≡ {answer}")
            lines.append(f"unfolding answer ascii\nchart_{number} = refl\n")
        modules.append(f"Charts{start // CHARTS_A_FILE}")
        (crate / "specs" / f"{modules[-1]}.antt").write_text("\n".join(lines))
    (crate / "specs" / "Lib.antt").write_text("".join(f"pub mod {m}\n" for m in modules))
    refusals = sorted({int(answer.split()[1]) for _, _, _, answer in rows if answer.startswith("refused")})
    print(f"{len(rows)} charts, refusals {' '.join(map(str, refusals))}")


main()
