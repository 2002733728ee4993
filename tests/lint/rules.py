"""The rules of the lint: each reads the files of a tree and gives its findings, a line of text each.

A tree is {path: text} with the .rt and .antt files of crates/, by paths such as 'crates/seek/src/lib.rt'.
"""
import collections
import pathlib
import re

LONG = 160
IMPORT = re.compile(r"^(pub )?(?:ghost |unfoldable )?use ([^\s;{]+?)(?:\.\{([^}]*)\}|::\{([^}]*)\})?(?: as (\S+?))?;?$")
PLACE = re.compile(r"^\s*-- src/\S+\.rt:\d+:\d+\s*$")
EXPORT = re.compile(r"^pub (?:use (?:\w+::)*|fn |const )([a-z]\w*|[A-Z_]+)\b(?!::)", re.M)
EXPORTS = re.compile(r"^pub use (?:\w+::)+\{([^}]*)\}", re.M)
LAW = re.compile(r"^(?:(?:pub|abbrev|unfoldable|opaque) )*([^\s:(){}]+) : ")
RELATION = re.compile(r"(?:^|\s)(?:≡|≤|<|↔|¬)(?:\s|$)")
# What the toolchain looks for in the proof of a function, by name; and what is pinned to the demands.
UNCITED = {"Answers.antt", "Invariants.antt", "Proof.antt", "Demanded.antt", "Outcomes.antt"}
BINDER = re.compile(r"[({]([^(){}:]+) : ")


def is_antt(path):
    return path.endswith(".antt")


def bare(path, text):
    """The lines without comments."""
    mark = "--" if is_antt(path) else "//"
    return [re.sub(rf"(^|\s){mark}.*$", "", line) for line in text.splitlines()]


def words(path, lines):
    """The words of a text: antt's names hold hyphens and signs, Rattle's do not."""
    text = "\n".join(lines)
    found = set(re.findall(r"[^\s(){}\[\],;.`\"⌜⌝λ]+", text))
    if not is_antt(path):
        found |= set(re.findall(r"\w+", text))
    if "[]" in text:
        found.add("[]")
    return found


def imported(match):
    """The names that an import brings into its file."""
    if match[5]:
        return [match[5]]
    listed = match[3] or match[4]
    if listed:
        return [name.split(" as ")[-1].strip() for name in listed.split(",")]
    return [re.split(r"::|\.", match[2])[-1]]


def is_used(name, found):
    """Whether a name stands among the words: of an operator such as `◌≡◌`, each of its parts or the whole, as behind `unfolding`."""
    parts = [part for part in name.split("◌") if part]
    return name in found or all(part in found for part in parts)


def on_one_line(lines):
    """The lines with each import that goes over several laid on its first, the others empty."""
    lines = list(lines)
    for number, line in enumerate(lines):
        if re.match(r"(pub |ghost |unfoldable )*use [^}]*$", line) and "{" in line:
            last = next((k for k in range(number, len(lines)) if "}" in lines[k]), number)
            joined = " ".join(part.strip() for part in lines[number : last + 1])
            lines[number : last + 1] = [re.sub(r"\{ | *,? \}", lambda found: found[0].strip(" ,"), joined), *[""] * (last - number)]
    return lines


def idle_imports(tree):
    """A name that is imported and used nowhere in the file."""
    for path, text in tree.items():
        lines = on_one_line(bare(path, text))
        matches = [IMPORT.match(line) for line in lines]
        found = words(path, [line for line, match in zip(lines, matches) if not match])
        for number, match in enumerate(matches, 1):
            for name in imported(match) if match and not match[1] else []:
                if not is_used(name, found):
                    yield f"{path}:{number}: {name} is imported and not used"


def long_lines(tree):
    """A line over 160 characters."""
    for path, text in tree.items():
        for number, line in enumerate(text.splitlines(), 1):
            if len(line) > LONG:
                yield f"{path}:{number}: {len(line)} characters"


def places(tree):
    """A comment that names a line and column of the code: it is wrong after the next change above that line."""
    for path, text in tree.items():
        for number, line in enumerate(text.splitlines(), 1):
            if is_antt(path) and PLACE.match(line):
                yield f"{path}:{number}: {line.strip()}"


def crowded_lets(tree):
    """A `let` behind another one on a line."""
    for path, text in tree.items():
        for number, line in enumerate(text.splitlines(), 1):
            if is_antt(path) and " in let " in line:
                yield f"{path}:{number}: one `let` a line"


def first_sentences(tree):
    """A file that does not begin with a sentence."""
    for path, text in tree.items():
        if not text.startswith(("//", "--")):
            yield f"{path}:1: the file does not begin with a sentence"


def idle_exports(tree):
    """A function or constant that a library exports and no other crate uses. A type comes with the functions that take or give it."""
    used = collections.defaultdict(set)
    for path, text in tree.items():
        own = path.split("/")[1]
        for crate, name in re.findall(r"\b(\w+)::(\w+)", text):
            used[crate].add((own, name))
        for crate, listed in re.findall(r"\b(\w+)::\{([^}]*)\}", text):
            used[crate] |= {(own, name.split(" as ")[0].strip()) for name in listed.split(",")}
        for crate, rest in re.findall(r"Rattle\.(\w+)\.(\S+)", text):
            used[crate] |= {(own, name) for name in rest.split(".")}
    for path, text in tree.items():
        crate = path.split("/")[1]
        if not path.endswith("/src/lib.rt"):
            continue
        others = {name for own, name in used[crate] if own != crate}
        listed = [name.split(" as ")[-1].strip() for names in EXPORTS.findall(text) for name in names.split(",")]
        for name in EXPORT.findall(text) + [name for name in listed if re.fullmatch(r"[a-z]\w*|[A-Z_]+", name)]:
            if name not in others:
                yield f"{path}: {name} is exported, and no other crate uses it"


def statement(lines):
    """A law's statement with its bound names numbered and its blanks evened out, or nothing where it is none."""
    text = " ".join(" ".join(lines).split())
    text = text.partition(" : ")[2]
    for k, name in enumerate(name for group in BINDER.findall(text) for name in group.split()):
        text = re.sub(rf"(?<![^\s(){{}}\[\],;.]){re.escape(name)}(?![^\s(){{}}\[\],;.])", f"#{k}", text)
    return text if RELATION.search(text) else None


def equal_statements(tree):
    """A law that stands a second time, under whatever name."""
    seen = {}
    for path, text in sorted(tree.items()):
        if not is_antt(path) or "/proofs/" not in path:
            continue
        lines = bare(path, text)
        for number, line in enumerate(lines):
            if not LAW.match(line):
                continue
            more = [line]
            for follow in lines[number + 1:]:
                if not follow.startswith(" "):
                    break
                more.append(follow)
            said = statement(more)
            if said in seen:
                yield f"{path}:{number + 1}: {LAW.match(line)[1]} says what {seen[said]} says"
            elif said:
                seen[said] = f"{path}:{number + 1}"


def laws(lines):
    """The laws of a file of proofs: each with its line and those that follow it up to an empty one. What stands deeper than a module's
    laws belongs to the law above it."""
    for number, line in enumerate(lines):
        match = LAW.match(line.removeprefix("  "))
        if match and match[1] not in ("pub", "record"):
            stop = next((k for k in range(number, len(lines)) if not lines[k].strip()), len(lines))
            yield match[1], number, stop


def idle_laws(tree):
    """A law that nothing cites. What is pinned to the demands is cited by none."""
    files = {path: bare(path, text) for path, text in tree.items()}
    cited = collections.Counter()
    for path, lines in files.items():
        for line in on_one_line(lines):
            if not IMPORT.match(line):
                cited.update(re.findall(r"[^\s(){}\[\],;.`\"⌜⌝λ]+", line))
    for path, lines in files.items():
        if "/proofs/" not in path or not is_antt(path) or pathlib.PurePath(path).name in UNCITED:
            continue
        for name, number, stop in laws(lines):
            own = sum(re.findall(r"[^\s(){}\[\],;.`\"⌜⌝λ]+", line).count(name) for line in lines[number:stop])
            if cited[name] <= own:
                yield f"{path}:{number + 1}: {name} is cited nowhere"


RULES = {
    "idle-imports": idle_imports,
    "long-lines": long_lines,
    "places": places,
    "crowded-lets": crowded_lets,
    "first-sentences": first_sentences,
    "idle-exports": idle_exports,
    "equal-statements": equal_statements,
    "idle-laws": idle_laws,
}
