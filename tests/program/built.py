"""How the program is built: the advice needs nothing of a system, the header's texts are the document's, and the sanitizers find nothing."""
import platform
import re
import subprocess

from program import ROOT, run

NATIVE = platform.machine() == "x86_64"
COMPILER = ["gcc"] if NATIVE else ["x86_64-linux-gnu-gcc"]
STRICT = ["-std=c11", "-O1", "-Wall", "-Wextra", "-Wpedantic", "-Wshadow", "-Werror", f"-I{ROOT}/build", f"-I{ROOT}/build/program"]
OF_THE_COMPILER = {"memcpy", "memset", "memmove", "memcmp"}  # it may write these calls itself


def freestanding(tests, folder):
    """The advice is compiled without a system, and calls nothing that it does not have."""
    advice = sorted((ROOT / "program/advice").glob("*.c"))
    linked = [*COMPILER, *STRICT, "-ffreestanding", "-nostdlib", "-r", *advice, "-o", f"{folder}/advice.o"]
    tests.expect("the advice is compiled", subprocess.run(linked).returncode, 0)
    listed = subprocess.run(["nm", "-u", f"{folder}/advice.o"], stdout=subprocess.PIPE, text=True).stdout
    tests.expect("what the advice calls", set(listed.replace(" U ", " ").split()) - OF_THE_COMPILER, set())


def texts(tests, _folder):
    """The header's texts of the refusals are the headings of the document."""
    header = (ROOT / "include/turnipcart.h").read_text()
    found = re.findall(r'^ {8}"(.*)",$', header.split("turnipcart_refusal_text")[1], re.M)
    for number, heading in re.findall(r"^## (\d+): (.+)$", (ROOT / "docs/REFUSALS.md").read_text(), re.M):
        tests.expect(f"text of {number}", found[int(number)], heading)


def sanitized(tests, folder):
    """With the sanitizers the program says the same of every slip; on another processor than x86-64 only undefined behaviour is looked for."""
    words = subprocess.run(["make", "-s", "-C", ROOT, "--no-print-directory", "words"], stdout=subprocess.PIPE, text=True).stdout.split()
    wanted = ["-fsanitize=address,undefined", "-fno-sanitize-recover=all"] if NATIVE else ["-static", "-fsanitize=undefined", "-fsanitize-undefined-trap-on-error"]
    built = [*COMPILER, *words, *wanted, "-o", f"{folder}/turnipcart"]
    tests.expect("the sanitized program is built", subprocess.run(built, cwd=ROOT).returncode, 0)
    emulator = [] if NATIVE else subprocess.run(["bash", "-c", '. "$0"; echo "${emulator[@]}"', ROOT / "tools/machine"], stdout=subprocess.PIPE,
                                                text=True).stdout.split()
    charts = sorted(ROOT.glob("tests/slips/*/*.sc")) + sorted(ROOT.glob("tests/charts/*.sc"))
    for asked in (["check", "--brief"], ["check", "--json"], ["flat"]):
        done = subprocess.run([*emulator, f"{folder}/turnipcart", *asked, *charts], stdout=subprocess.PIPE, stderr=subprocess.PIPE)
        tests.expect(f"{' '.join(asked)}, sanitized", (done.returncode, done.stdout, done.stderr), run(*asked, *charts))


ALL = [freestanding, texts, sanitized]
