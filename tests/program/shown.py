"""What the subcommands print, compared with outputs written by hand from document 01 and with the charts' stored listings."""
import json
import os
import re
import subprocess

from program import CHART, FINE, NOT_READ, PROGRAM, REFUSAL, REFUSED, ROOT, run, status, write

HERE = ROOT / "tests/program"
LAST_REFUSAL = 20
TOO_LONG = b"refused 18 line 0\n"


def listings(tests, _folder):
    """`list` prints the stored listing of every chart that shows one point, and of some of those that are generated."""
    charts = sorted((ROOT / "tests/charts").glob("*.sc"))
    tests.expect("charts are there", len(charts) >= 600, True)
    generated = [chart for chart in charts if chart.name.startswith("made-")]
    for chart in sorted(set(charts) - set(generated)) + generated[::10]:
        wanted = chart.with_suffix(".listing").read_bytes()
        if wanted == TOO_LONG:  # for the tables of the listing program alone
            continue
        found = run("list", chart)
        tests.expect(f"list {chart.name}", found, (REFUSAL if wanted.startswith(b"refused") else FINE, wanted, b""))
    long = run("list", ROOT / "tests/charts/limit-exactly.sc")[1].splitlines()
    tests.expect("list of the longest song", (long[0], len(long)), (b"song 1 65535 262140 0", 2 + 65535))


def grids(tests, _folder):
    """`grid`, `find`, `flat` and the others print what stands beside their charts, written by hand."""
    for chart in sorted(HERE.glob("*.sc")):
        for command in re.findall(r"^\$ (.*)\n", chart.with_suffix(".expected").read_text(), re.M):
            wanted = chart.with_suffix(".expected").read_text().split(f"$ {command}\n")[1].split("$ ")[0]
            found = run(*command.split(), cwd=HERE)
            tests.expect(f"{command}", found[1].decode(), wanted)


def entries(tests, _folder):
    """`explain` prints each entry of the document, and only those."""
    parts = re.split(r"^(?:## |\*\*(?=\d)|# (.*))", (ROOT / "docs/REFUSALS.md").read_text(), flags=re.M)
    found = [part for part in parts if part and re.match(r"\d+: ", part)]
    for part in found:
        number = part.split(":")[0]
        tests.expect(f"explain {number}", run("explain", number), (FINE, ("Refusal " + part.rstrip().replace("**", "", 1) + "\n").encode(), b""))
    tests.expect("entries are there", [int(part.split(":")[0]) for part in found][:LAST_REFUSAL], list(range(1, LAST_REFUSAL + 1)))
    tests.expect("explain 999", status("explain", "999"), REFUSAL)


def copies(tests, folder):
    """`flat` prints the copy of a song and nothing else; what is refused is told on standard error, in the words of `check`."""
    cuts = (HERE / "cuts.sc").read_bytes()
    copy = run("flat", "-", given=cuts)[1]
    tests.expect("the copy of a copy", run("flat", "-", given=copy), (FINE, copy, b""))
    refused = write(folder, "refused.sc", REFUSED)
    tests.expect("a refused chart", run("flat", refused), (REFUSAL, b"", run("check", refused)[1]))
    name, long = write(folder, "most.sc", b"Song\n[C]8191\n"), write(folder, "long.sc", b"Song\n[C]8192\n")
    tests.expect("the longest copy", run("flat", name), (FINE, b"Song\n" + b"C C C C\n" * 8191, b""))
    found, out, said = run("flat", long)
    tests.expect("a copy too long", (found, out, said.startswith(long.encode() + b": refused 20: ")), (REFUSAL, b"", True))
    tests.expect("it is a song", status("check", long), FINE)
    short = write(folder, "short.sc", b"V\nC")
    tests.expect("several copies", run("flat", short, refused, long, short, folder)[:2], (NOT_READ, b"V\nC C C C\n\f\nV\nC C C C\n"))
    written = folder + "/written.sc"
    for option in ("-o", "--output"):
        tests.expect(f"{option}: nothing is printed", run("flat", option, written, short), (FINE, b"", b""))
        tests.expect(f"{option}: what is written", open(written, "rb").read(), b"V\nC C C C\n")
    for other in (refused, long):
        tests.expect("an output beside a refusal", (status("flat", other, "-o", written), open(written, "rb").read()), (REFUSAL, b"V\nC C C C\n"))
    tests.expect("the output is the chart", (status("flat", name, "-o", name), open(name, "rb").read()), (FINE, b"Song\n" + b"C C C C\n" * 8191))
    tests.expect("an output that is a folder", status("flat", short, "-o", folder), NOT_READ)
    tests.expect("`-` as output", run("flat", short, "-o", "-")[1], b"V\nC C C C\n")


def objects(tests, folder):
    """`check --json` prints one object for each file."""
    names = [write(folder, "json1.sc", CHART), write(folder, "json2\"\\\n.sc", REFUSED), folder + "/none.sc", write(folder, "json3.sc", b"V\nC,Am\n")]
    found = [json.loads(line) for line in run("check", "--json", *names)[1].splitlines()]
    tests.expect("files of the objects", [one["file"] for one in found], names)
    tests.expect("refusals of the objects", [one.get("refusal") for one in found], [0, 7, None, 0])
    tests.expect("counts of the first", [found[0][part] for part in ("sections", "measures", "beats", "items")], [1, 4, 16, 1])
    tests.expect("the file that is not there", "error" in found[2], True)
    tests.expect("warnings", [len(one.get("warnings", [])) for one in found], [0, 0, 0, 1])


def warnings(tests, folder):
    """Warnings stand apart from the verdict, and --strict makes them status 1."""
    cases = {
        "V\nC,Am;F\n": [(2, 1)], "V\nC|G\n": [(2, 1)], "V\nC\u00a0Am;G\n": [(2, 1)], "V\nG;F\u266f\n": [(2, 3)], "V\nC;F#m7b5;Bb/D;Cmaj7\n": [],
        "V\nC;G\n_before A,B\n": [(3, 9)], "I\nC\n\nV\nC\n--\nla _1\n": [(1, 1)], "V\nC\n--\nla\n": [(4, 3)], "V\nC\n--\nla _1\n": [],
        "$1\nC-Am\n\nV\n$1\n": [(2, 1)],
    }
    for chart, wanted in cases.items():
        name = write(folder, "warned.sc", chart.encode())
        _status, out, _error = run("check", name)
        places = re.findall(rf"^{re.escape(name)}:(\d+):(\d+): warning: ", out.decode(), re.M)
        tests.expect(f"warnings of {chart!r}", [(int(line), int(column)) for line, column in places], wanted)
        tests.expect(f"{chart!r} is a song", status("check", name), FINE)
        tests.expect(f"{chart!r}, strictly", status("check", "--strict", name), REFUSAL if wanted else FINE)


def installed(tests, folder):
    """What `make install` lays down works there, and `make uninstall` takes all of it away."""
    make = ["make", "-s", "--no-print-directory", "-C", ROOT, f"DESTDIR={folder}/root", "PREFIX=/opt/t"]
    tests.expect("make install", subprocess.run([*make, "install"], stdout=subprocess.PIPE).returncode, 0)
    there = sorted(os.path.relpath(os.path.join(path, name), f"{folder}/root/opt/t") for path, _folders, names in os.walk(folder + "/root")
                   for name in names if name != "turnipcart" or path.endswith("bin"))
    tests.expect("installed files", there, ["bin/turnipcart", "include/turnipcart.h", "lib/libturnipcart.a", "lib/pkgconfig/turnipcart.pc",
                                            "share/man/man1/turnipcart.1"])
    chart = write(folder, "installed.sc", CHART)
    done = subprocess.run([f"{folder}/root/opt/t/bin/turnipcart", "check", chart], stdout=subprocess.PIPE)
    tests.expect("the installed program", (done.returncode, done.stdout), run("check", chart)[:2])
    version = run("--version")[1].decode().split()[1]
    tests.expect("the installed .pc", f"Version: {version}\n" in open(f"{folder}/root/opt/t/lib/pkgconfig/turnipcart.pc").read(), True)
    tests.expect("make uninstall", subprocess.run([*make, "uninstall"], stdout=subprocess.PIPE).returncode, 0)
    tests.expect("nothing is left", [names for _path, _folders, names in os.walk(folder + "/root") if names], [])


ALL = [listings, grids, entries, copies, objects, warnings, installed]
