"""same_advice.py PROGRAM PAGE: lines of JSON from `turnipcart check --json` and from the page, one for each chart; every field that the
page gives must be the program's too. Says what differs, and fails; fails too if there is nothing to compare, or if an altered word passes."""
import json
import os
import sys


def difference(ours, other):
    """The first field of `ours` that `other` has not, or has otherwise; None if there is none."""
    for name, value in ours.items():
        if name == "warnings":
            if len(value) != len(other.get(name, [])):
                return name
            for mine, its in zip(value, other[name]):
                if difference(mine, its):
                    return f"{name}: {difference(mine, its)}"
        elif name == "file":
            if os.path.basename(other["file"]) != value:
                return name
        elif other.get(name) != value:
            return name
    return None


def main():
    program, page = ([json.loads(line) for line in open(file, encoding="utf-8", errors="surrogateescape")] for file in sys.argv[1:])
    if not page or len(page) != len(program):
        sys.exit(f"{len(page)} charts by the page, {len(program)} by the program")
    found = [(ours["file"], difference(ours, other)) for ours, other in zip(page, program)]
    found = [pair for pair in found if pair[1]]
    for name, field in found[:10]:
        print(f"{name}: {field} differs")
    spoken = next(ours for ours in page if ours["refusal"] != 0)
    if not difference({**spoken, "sentence": spoken["sentence"] + "x"}, spoken):
        sys.exit("an altered sentence was not noticed")
    sys.exit(1 if found else 0)


main()
