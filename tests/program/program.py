"""The program under test, and what every test needs: a run of it, and differences that are gathered and shown."""
import os
import pathlib
import subprocess

ROOT = pathlib.Path(__file__).resolve().parents[2]
PROGRAM = ROOT / "build/turnipcart"
CHART = b"@bpm 120\n\nVerse\nC;Am;F;G\n--\nBlue moon _4\n"
REFUSED = b"Verse\nC;am\n"
FINE, REFUSAL, USAGE, NOT_READ = 0, 1, 2, 3


class Tests:
    """Counts what was looked at, and keeps what differs."""

    def __init__(self):
        self.looked_at = 0
        self.faults = []

    def expect(self, what, found, wanted):
        self.looked_at += 1
        if found != wanted:
            self.faults.append(f"{what}: found {found!r}, wanted {wanted!r}"[:600])


def run(*words, given=b"", **more):
    """Status, standard output and standard error."""
    done = subprocess.run([PROGRAM, *words], input=given, stdout=subprocess.PIPE, stderr=subprocess.PIPE, **more)
    return done.returncode, done.stdout, done.stderr


def status(*words, **more):
    return run(*words, **more)[0]


def write(folder, name, content):
    path = os.path.join(folder, name)
    with open(path, "wb") as file:
        file.write(content)
    return path
