"""What is said of charts with an arranger's slips, compared with tests/slips/wanted: place, verdict, cause and repair."""
import json

from program import ROOT, run

SLIPS = ROOT / "tests/slips"


def rows():
    """For each chart its rows: place, verdict, words of the sentence, words of the repair."""
    wanted = {}
    for line in (SLIPS / "wanted").read_text().splitlines():
        if line.startswith("#"):
            continue
        name, place, verdict, cause, repair = (line.split("\t") + ["", ""])[:5]
        wanted.setdefault(name, []).append((place, verdict, cause.split(" + "), repair.split(" + ")))
    return wanted


def said_of(one):
    """The same of one object: refused once, or `ok`, and its warnings."""
    found = []
    if one["refusal"]:
        found.append((one, f"refused {one['refusal']}"))
    return found + [(warning, "warning") for warning in one.get("warnings", [])]


def compare(tests, name, wanted, said):
    """Every wanted row is said, in order, and nothing else."""
    wanted = [row for row in wanted if row[1] != "ok"]
    tests.expect(f"{name}: verdicts", [verdict for _said, verdict in said], [row[1] for row in wanted])
    for (place, _verdict, cause, repair), (one, _kind) in zip(wanted, said):
        tests.expect(f"{name}: place", f"{one['place_line']}:{one['column']}" if one["place_line"] else "-", place)
        tests.expect(f"{name}: cause in {one['sentence']!r}", [word for word in cause if word not in one["sentence"]], [])
        tests.expect(f"{name}: repair in {one['repair']!r}", [word for word in repair if word not in one["repair"]], [])


def slips(tests, _folder):
    """All charts in one run, and the mended ones."""
    wanted = rows()
    names = sorted(path.name for path in (SLIPS / "charts").glob("*.sc"))
    tests.expect("charts with a row", names, sorted(wanted))
    objects = [json.loads(line) for line in run("check", "--json", *names, cwd=SLIPS / "charts")[1].splitlines()]
    for name, one in zip(names, objects, strict=True):
        compare(tests, name, wanted[name], said_of(one))
    mended = sorted((SLIPS / "mended").glob("*.sc"))
    objects = [json.loads(line) for line in run("check", "--json", *mended)[1].splitlines()]
    tests.expect("mended charts", [(one["file"], one["refusal"]) for one in objects], [(str(path), 0) for path in mended])


ALL = [slips]
