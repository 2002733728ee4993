"""Puts the page together: assemble.py FOLDER MODULE RESULT. Style, scripts and the module's bytes, compressed, go into the one file."""
import base64
import gzip
import pathlib
import sys

SCRIPTS = ("reader.js", "song.js", "advice.js", "view.js", "main.js")


def assembled(folder: pathlib.Path, module: bytes) -> str:
    page = (folder / "page.html").read_text()
    parts = {
        "@STYLE@": (folder / "style.css").read_text(),
        "@MODULE@": base64.b64encode(gzip.compress(module, 9, mtime=0)).decode(),
        "@SCRIPT@": "\n".join((folder / name).read_text() for name in SCRIPTS),
    }
    for mark, part in parts.items():
        if page.count(mark) != 1:
            sys.exit(f"assemble: {mark} stands {page.count(mark)} times in page.html")
        if "</script" in part or "</style" in part:
            sys.exit(f"assemble: the part for {mark} would end its own element")
        page = page.replace(mark, part)
    return page


def main() -> None:
    folder, module, result = (pathlib.Path(word) for word in sys.argv[1:])
    result.write_text(assembled(folder, module.read_bytes()))


main()
