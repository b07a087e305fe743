"""Holds docs/RULES.md, the other documents and the header to the repository: each definition, theorem, call, must-fail edit
and part of the comparison that a row names stands in the crate that the row names, no row of document 01 has an empty
cell, each public call has two wrong answers that its contract rules out, each file of a crate that ARCHITECTURE.md or
DECISIONS.md names is there, ARCHITECTURE.md's table of crates is crates.txt, README's map has every crate,
include/iolwarch.h declares the exported functions and no other, and no function has 40 lines or a second loop.
The last line is 'N passed, M failed'."""
import functools
import re
import sys

from repository import CRATES, ROOT, RULES, check, counted, declared, functions_of, listed, rows


def text(paths):
    return "\n".join(path.read_text() for path in paths)


@functools.cache
def declared_in(path):
    """The definitions, theorems, records, fields and constructors of a file of antt, or what a file of code declares."""
    if path.suffix == ".rt":
        return set(re.findall(r"^\s*(?:pub )?(?:struct|enum|const|fn) (\w+)", path.read_text(), re.M))
    return {declared(line.strip()) for line in path.read_text().splitlines()}


@functools.cache
def code(crate):
    return text((CRATES / crate / "src").glob("**/*.rt"))


@functools.cache
def theorems(crate):
    return set().union(*(declared_in(path) for part in ("specs", "proofs") for path in (CRATES / crate / part).glob("**/*.antt")))


def definition(row, cell):
    """Answers the crates that the cell names."""
    crates = []
    for part in cell.split(";"):
        # `crate` File: `name`, `name .field`        or        `crate` `Name`, `Name` for what the code declares
        placed = re.match(r"\s*`(\w+)` (\w+): (.*)", part)
        coded = re.match(r"\s*`(\w+)` (`.*)", part)
        # a part without a crate goes on in that of the part before
        follows = re.match(r"\s*(\w+): (.*)", part)
        if placed:
            crate, file, names = placed.groups()
            source = CRATES / crate / "specs" / f"{file}.antt"
        elif coded:
            crate, names = coded.groups()
            source = CRATES / crate / "src" / "lib.rt"
        elif follows and crates:
            crate = crates[-1]
            file, names = follows.groups()
            source = CRATES / crate / "specs" / f"{file}.antt"
        else:
            check("`" not in part, f"{row}: cannot read the definition {part.strip()}")
            continue
        crates.append(crate)
        check(source.is_file(), f"{row}: no file {source.relative_to(ROOT)}")
        if source.is_file():
            for name in re.findall(r"`(?:\w+ )?\.?([^` ]+)(?: \.[^`]+)?`", names):
                check(name in declared_in(source), f"{row}: {name} does not stand in {source.relative_to(ROOT)}")
    return crates


def calls(row, cell, crates):
    """`crate::name` stands in that crate, a public call in one of those that row W1 names, any other name in a crate of
    the row's definitions."""
    for crate, name in re.findall(r"`(?:(\w+)::)?([a-z_0-9]+)`", cell):
        if name.startswith("iolwarch_"):
            check(name in exported(), f"{row}: no exported function {name}")
        else:
            where = [crate] if crate else crates + public_calls().get(name, [])
            homes = [path.name for path in CRATES.iterdir() if re.search(rf"\bfn {name}\b", code(path.name))]
            check(set(where) & set(homes), f"{row}: no function {name} in {', '.join(where)}; it stands in {', '.join(homes) or 'no crate'}")


@functools.cache
def exported():
    found = (one for path in CRATES.glob("*/src/**/*.rt") for one in functions_of(path))
    return {one.name for one in found if one.exported and one.name.startswith("iolwarch_")}


def row_of(cells, edits, parts):
    row, _, defined, call, proof, test = cells
    crates = definition(row, defined)
    calls(row, call, crates)
    for name in re.findall(r"`([a-z][\w-]*)(?: [^`]*)?`", proof):
        check(any(name in theorems(crate) for crate in crates), f"{row}: no theorem {name} in {', '.join(crates)}")
    for names in re.findall(r"edits? ([\w, ]+)", test):
        for name in names.split(","):
            check(name.strip() in edits, f"{row}: no must-fail edit {name.strip()}")
    for names in re.findall(r"compare ([\w, ]+)", re.sub(r"\([^)]*\)", "", test)):
        for name in names.split(","):
            check(name.strip() in parts | {"every part"}, f"{row}: no part {name.strip()} of the comparison")


@functools.cache
def public_calls():
    """Row W1 is about every public call, and has their crates."""
    (every,) = (cells for cells in rows() if cells[0] == "W1")
    crates = re.findall(r"`(\w+)` \w+:", every[2])
    return {name: crates for name in re.findall(r"`([a-z_]+)`", every[3])}


def clauses():
    named = re.findall(r"^# (\w+): ", text(CRATES.glob("*/must-fail/*.edit")), re.M)
    edits = set(named)
    for name in sorted(edits):
        check(named.count(name) == 1, f"two wrong answers are named {name}, so a row's edit may be either")
    parts = set(re.findall(r'\("(\w+)", \w+::run\)', (ROOT / "tests" / "src" / "main.rs").read_text()))
    seen = set()
    for cells in rows():
        check(len(cells) == 6 and cells[0] not in seen, f"row {cells[0]}: six cells, each number once")
        # a request of document 02 that is not built yet has empty cells; a clause of document 01 has none
        check(cells[0].startswith("E") or all(cells), f"row {cells[0]}: an empty cell")
        seen.add(cells[0])
        if len(cells) == 6:
            row_of(cells, edits, parts)
    print(f"{len(seen)} rows, {sum(not row.startswith('E') for row in seen)} of them of document 01")


def contracts():
    """'What each public contract rules out': two wrong answers or more for each public call and for each exported function."""
    section = RULES.read_text().split("## What each public contract rules out")[1].split("\n## ")[0]
    calls = set()
    for cells in (line.strip("|").split("|") for line in section.splitlines() if line.startswith("| ")):
        answers = re.findall(r"(\w+) \(`(\w+)`\)", cells[1])
        if not answers:
            continue
        calls.update(re.findall(r"`(?:\w+::)*(\w+)`", cells[0]))
        check(len(set(answers)) >= 2, f"{cells[0].strip()}: fewer than two wrong answers")
        for name, crate in answers:
            named = re.search(rf"^# {name}: ", text((CRATES / crate / "must-fail").glob("*.edit")), re.M)
            check(named, f"{cells[0].strip()}: no wrong answer {name} in {crate}/must-fail")
    for name in sorted(exported() | set(public_calls())):
        check(name in calls, f"{name}: no wrong answers in 'What each public contract rules out'")


def functions():
    """A function is read at once, contract and parameters with the body: under 40 lines from `fn` to its `}`, and one loop."""
    for path in sorted(CRATES.glob("*/src/**/*.rt")):
        for name, _, _, lines in functions_of(path):
            check(len(lines) < 40, f"{path.relative_to(ROOT)}: {name} has {len(lines)} lines")
            loops = sum(bool(re.match(r"\s*('\w+: )?(while|for|loop)\b", line)) for line in lines)
            check(loops < 2, f"{path.relative_to(ROOT)}: {name} has a second loop")


def documents():
    """Files of crates as the documents name them: `crate/specs/File`, `crate/proofs/File`, `crate/src/file.rt`, `crate/src`."""
    for name in ("ARCHITECTURE.md", "DECISIONS.md"):
        for crate, rest in re.findall(r"`(?:crates/)?([a-z_]+)/((?:specs|proofs|src)[\w./]*)`", (ROOT / "docs" / name).read_text()):
            path = (ROOT if crate == "tests" else CRATES) / crate / rest
            check(path.exists() or any(path.with_suffix(end).is_file() for end in (".antt", ".rt")), f"{name}: no {crate}/{rest}")
    architecture = (ROOT / "docs" / "ARCHITECTURE.md").read_text()
    for name, named in listed().items():
        row = re.search(rf"^\| `{name}` \| .* \|(.*)\|$", architecture, re.M)
        check(row and re.findall(r"`(\w+)`", row[1]) == named, f"ARCHITECTURE.md: the row of {name} is not that of crates.txt")
    readme = (ROOT / "README.md").read_text()
    for crate in sorted(path.name for path in CRATES.iterdir() if path.is_dir()):
        check(f"| `{crate}` |" in readme, f"README's map has no crate {crate}")


def header():
    declared = set(re.findall(r"^\w+ (iolwarch_\w+)\(", (ROOT / "include" / "iolwarch.h").read_text(), re.M))
    for name in sorted(declared | exported()):
        check(name in declared, f"include/iolwarch.h does not declare {name}")
        check(name in exported(), f"no crate exports {name}, which include/iolwarch.h declares")


clauses()
contracts()
documents()
header()
functions()
sys.exit(counted())
