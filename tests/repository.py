"""The repository as rules.py, once.py, edits.py and frames.py read it, and how they count."""
import collections
import functools
import itertools
import pathlib
import re

ROOT = pathlib.Path(__file__).resolve().parent.parent
CRATES = ROOT / "crates"
RULES = ROOT / "docs" / "RULES.md"
MARKS = r"(?:(?:pub|unfoldable|abbrev|private) )*"

Function = collections.namedtuple("Function", "name exported line lines")
count = collections.Counter()


def check(good, what):
    """One case; where it fails, a line says what."""
    count[bool(good)] += 1
    if not good:
        print("FAILED", what)


def counted():
    """Prints the last line, 'N passed, M failed', and answers the exit status."""
    print(f"{count[True]} passed, {count[False]} failed")
    return count[False] > 0


@functools.cache
def listed():
    """crates.txt: each crate with what it names."""
    lines = re.sub("#.*", "", (ROOT / "crates.txt").read_text())
    return {name: named.split() for name, named in re.findall(r"^(\w+)(?: +staticlib)? *:(.*)$", lines, re.M)}


def declared(line):
    """The name that a line of antt declares: a type, a set of lemmas, or what stands before a colon."""
    if found := re.match(MARKS + r"(?:record|data|ruleset) (\S+)", line):
        return found[1]
    if not (found := re.match(MARKS + r"(\S+) ", line)):
        return None
    depth = 0
    for word in re.findall(r"[(){}]|[^\s(){}]+", line[found.end() :]):
        depth += (word in "({") - (word in ")}")
        if depth == 0 and word in ("=", ":"):
            return found[1].strip("«»") if word == ":" else None
    return None


def attributes(above):
    """The attributes that stand right above a line."""
    return [line.strip() for line in itertools.takewhile(lambda line: line.strip().startswith("#["), reversed(above))]


def functions_of(path):
    """The functions of a file of code, each with its lines from `fn` to its `}`; an exported one C can call."""
    lines = path.read_text().splitlines()
    for at, line in enumerate(lines):
        if found := re.match(r"( *)(?:pub(?:\(\w+\))? )?(extern \"C\" )?fn (\w+)", line):
            exported = bool(found[2]) and "#[unsafe(no_mangle)]" in attributes(lines[:at])
            yield Function(found[3], exported, at + 1, lines[at : lines.index(found[1] + "}", at) + 1])


def rows():
    """The rows of docs/RULES.md that have a number, each as its cells."""
    for line in RULES.read_text().splitlines():
        if re.match(r"\| [A-Z]\d+", line):
            yield [cell.strip() for cell in line.strip("|").split("|")]
