"""What comes from outside: files that cannot be read, outputs that cannot be written, bytes that a terminal must not get, small stacks,
thousands of files."""
import os
import platform
import resource
import socket
import struct
import subprocess
import time

from program import CHART, FINE, NOT_READ, PROGRAM, REFUSAL, REFUSED, USAGE, run, status, write

LIMIT = 65536
SMALL_STACK = 512 * 1024
MANY = 3000
SECONDS = 1.0 if platform.machine() == "x86_64" else 15.0  # of processor time; an emulator takes more
SUBCOMMANDS = ["check", "grid", "list", "find", "concert", "cues", "flat", "explain"]


def usage(tests, folder):
    """The statuses, and help for everything."""
    chart = write(folder, "usage.sc", CHART)
    tests.expect("no subcommand", status(), USAGE)
    tests.expect("an unknown subcommand", status("chek", chart), USAGE)
    tests.expect("an unknown option", status("check", "--brif", chart), USAGE)
    tests.expect("no file", status("check"), USAGE)
    tests.expect("two files for one", status("grid", chart, chart), USAGE)
    tests.expect("no name behind an option", status("flat", chart, "-o"), USAGE)
    tests.expect("an option of another subcommand", status("grid", chart, "-o", chart), USAGE)
    tests.expect("no number", status("find", chart, "two"), USAGE)
    tests.expect("a number that is too large", status("find", chart, "4294967296"), USAGE)
    version = (PROGRAM.parents[1] / "include/turnipcart.h").read_text().split('TURNIPCART_VERSION "')[1].split('"')[0]
    tests.expect("--version", run("--version"), (FINE, f"turnipcart {version}\n".encode(), b""))
    shown = run("--help")[1].decode()
    for name in SUBCOMMANDS:
        tests.expect(f"--help names {name}", f"\n  {name} " in shown, True)
        tests.expect(f"{name} --help", run(name, "--help")[1].startswith(f"usage: turnipcart {name} ".encode()), True)


def files(tests, folder):
    """Each file is read to its end or reported, and the status is the worst."""
    fine, refused = write(folder, "fine.sc", CHART), write(folder, "refused.sc", REFUSED)
    tests.expect("a song", status("check", fine), FINE)
    tests.expect("a refused chart", status("check", refused), REFUSAL)
    tests.expect("a file that is not there", status("check", folder + "/none.sc"), NOT_READ)
    tests.expect("a folder", status("check", folder), NOT_READ)
    for order in ([fine, refused], [refused, fine]):
        tests.expect("a song and a refused chart", status("check", *order), REFUSAL)
    tests.expect("all of them", status("check", fine, folder, refused), NOT_READ)
    tests.expect("a song behind a folder is still checked", run("check", folder, fine)[1].startswith(fine.encode() + b": ok"), True)
    tests.expect("standard input", run("check", "-", given=CHART)[1][:20], b"standard input: ok: ")
    opened = os.open(folder, os.O_RDONLY)
    done = subprocess.run([PROGRAM, "check", "-"], stdin=opened, stdout=subprocess.PIPE, stderr=subprocess.PIPE)
    os.close(opened)
    tests.expect("a folder as standard input", (done.returncode, done.stdout), (NOT_READ, b""))
    for length, refusal in ((LIMIT, FINE), (LIMIT + 1, REFUSAL)):
        long = write(folder, "long.sc", b"Song\nC\n--\n" + b"x" * (length - 10))
        tests.expect(f"{length} bytes", status("check", long), refusal)
    tests.expect("a file far too long", b"has 200,000 bytes" in run("check", write(folder, "vast.sc", b"x" * 200000))[1], True)


def from_socket(content, reset):
    """Checks what a connection sends piece by piece, which then ends or breaks."""
    server = socket.create_server(("127.0.0.1", 0))
    client = socket.create_connection(server.getsockname())
    sender, _address = server.accept()
    checking = subprocess.Popen([PROGRAM, "check", "-"], stdin=client, stdout=subprocess.PIPE, stderr=subprocess.PIPE)
    client.close()
    for start in range(0, len(content), 10):
        sender.sendall(content[start:start + 10])
        time.sleep(0.02)
    time.sleep(0.5)
    if reset:
        sender.setsockopt(socket.SOL_SOCKET, socket.SO_LINGER, struct.pack("ii", 1, 0))
    sender.close()
    server.close()
    out, _error = checking.communicate()
    return checking.returncode, out


def short_reads(tests, _folder):
    """Pieces make one chart; a read that fails in the middle makes none."""
    tests.expect("a chart in pieces", from_socket(CHART, False)[0], FINE)
    tests.expect("a read that fails behind a whole chart", from_socket(CHART, True), (NOT_READ, b""))


def outputs(tests, folder):
    """Every write is checked."""
    chart = write(folder, "output.sc", CHART)
    for words in (["check", chart], ["check", "--json", chart], ["grid", chart], ["list", chart], ["find", chart, "0"], ["explain", "7"],
                  ["concert", "2", chart], ["cues", chart], ["flat", chart], ["--help"], ["--version"], ["check", "--help"]):
        with open("/dev/full", "wb") as full:
            done = subprocess.run([PROGRAM, *words], stdout=full, stderr=subprocess.PIPE)
        tests.expect(f"a full disk, {words[0]}", (done.returncode, b"not written" in done.stderr), (NOT_READ, True))
    written = run("flat", chart, "-o", "/dev/full")
    tests.expect("a full disk, flat -o", (written[0], b"not written" in written[2]), (NOT_READ, True))
    many = [chart] * 5000
    with open("/dev/full", "wb") as full:
        tests.expect("a full disk, long output", subprocess.run([PROGRAM, "check", *many], stdout=full, stderr=subprocess.PIPE).returncode,
                     NOT_READ)
    closed = subprocess.run(["sh", "-c", '"$0" check "$1" >&-', PROGRAM, chart], stderr=subprocess.PIPE)
    tests.expect("a closed output", closed.returncode, NOT_READ)


def raw_bytes(out):
    """Bytes that a terminal may take for commands, and characters that are no UTF-8."""
    text = out.decode("utf-8", "surrogateescape")
    return [sign for sign in text if sign != "\n" and (ord(sign) < 32 or 127 <= ord(sign) < 160 or 0xDC00 <= ord(sign) < 0xE000)]


def safe_bytes(tests, folder):
    """No byte of a chart or of a name reaches the terminal raw."""
    escape = b"\x1b[31m"
    charts = [b"Verse\nC;A" + escape + b";F\n_repaet" + escape + b" 2\n", b"Ver" + escape + b"se\nC" + escape.replace(b"[", b"(") + b";F\n",
              b"Verse\nC\n--\nca\xe9 " + escape, b"@name x\n@tem" + escape + b"po 3\n\nV\nC\n", b"V\nC|" + b"\x9b\n", "V\nC\u202e;\u0085F\n".encode()]
    for place, content in enumerate(charts):
        name = write(folder, f"raw{place}\x1b[2J.sc", content)
        for words in (["check", name], ["check", "--brief", name], ["check", "--json", name], ["grid", name], ["find", name, "0"]):
            _status, out, error = run(*words)
            tests.expect(f"raw bytes of chart {place}, {words[:-1]}", (raw_bytes(out), raw_bytes(error)), ([], []))
        tests.expect(f"raw bytes of chart {place}, told by flat", raw_bytes(run("flat", name)[2]), [])
    missing = run("check", folder + "/\x1b[31mnone")
    tests.expect("raw bytes of a missing name", raw_bytes(missing[2]), [])
    tests.expect("raw bytes are noticed", len(raw_bytes(b"a\x1b[31m\xff")), 2)


def stacks(tests, folder):
    """An ordinary and a small stack do, for the largest song too."""
    large = write(folder, "large.sc", b"@time 32/4\n\nSong\n[C]9999\n_repeat 6\n--\nla _9999\n" + b"la _9999\n" * 5)
    environment = dict(os.environ, QEMU_STACK_SIZE=str(SMALL_STACK))
    for words in (["check", large], ["list", large], ["grid", large], ["find", large, "1919807"]):
        found = status(*words, env=environment, preexec_fn=lambda: resource.setrlimit(resource.RLIMIT_STACK, (SMALL_STACK, SMALL_STACK)))
        tests.expect(f"a small stack, {words[0]}", found, FINE)
    small = {"env": environment, "preexec_fn": lambda: resource.setrlimit(resource.RLIMIT_STACK, (SMALL_STACK, SMALL_STACK))}
    tests.expect("a small stack, a copy too long", status("flat", large, **small), REFUSAL)
    dense = write(folder, "dense.sc", b"Dense\n" + b"A Bm C D7;" * 6500 + b"A\n")
    tests.expect("a small stack, flat", status("flat", dense, **small), FINE)
    uneven = write(folder, "uneven.sc", b"Verse\n" + b"A;" * 20000 + b"A\n--\nx _3\n")
    found = status("check", uneven, env=environment, preexec_fn=lambda: resource.setrlimit(resource.RLIMIT_STACK, (SMALL_STACK, SMALL_STACK)))
    tests.expect("a small stack, refused late", found, REFUSAL)


def many_files(tests, folder):
    """Thousands of files in one run."""
    names = []
    for place in range(MANY):
        names.append(write(folder, f"many{place}.sc", CHART if place % 2 else REFUSED))
    before = resource.getrusage(resource.RUSAGE_CHILDREN)
    done = run("check", *names)
    after = resource.getrusage(resource.RUSAGE_CHILDREN)
    took = after.ru_utime + after.ru_stime - before.ru_utime - before.ru_stime
    tests.expect("verdicts for many files", done[1].count(b": ok: ") + done[1].count(b": refused "), MANY)
    tests.expect(f"{MANY} files within {SECONDS} s of processor time (took {took:.2f} s)", took < SECONDS, True)


def long_charts(tests, folder):
    """What is said takes time in proportion to the chart, however it is laid out."""
    charts = {"one line": b"V\n" + b"C;" * 32000 + b"am\n", "many lines": b"V\n" + b"C\n" * 32000 + b"am\n", "many loops": b"V\n" + b"[C]2;" * 13000 + b"[C\n",
              "many warnings": b"V\n" + b";".join([b"C,"] * 21000) + b"\n", "many counts": b"V\nC\n--\n" + b"a _1\n" * 13000,
              "many sections": b"V\nC\n\n" * 13000 + b"V\nam\n"}
    for what, chart in charts.items():
        before = resource.getrusage(resource.RUSAGE_CHILDREN)
        run("check", write(folder, "long.sc", chart))
        after = resource.getrusage(resource.RUSAGE_CHILDREN)
        took = after.ru_utime - before.ru_utime
        tests.expect(f"{what} within {SECONDS / 3} s (took {took:.2f} s)", took < SECONDS / 3, True)


ALL = [usage, files, short_reads, outputs, safe_bytes, stacks, many_files, long_charts]
