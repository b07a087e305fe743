#!/usr/bin/env python3
"""Places in crates/*/src that are written in an older form than Rattle allows: one line a place, by the points of docs/DESIGN-PASS.md.

usage: forms.py [--points 1,3] [FOLDER]      (FOLDER: a checkout, this one if left out)

It reads signatures, bodies and contracts by their text. What only a reader sees (points 2, 4 and 7 in part) is listed in the page itself."""
import argparse
import collections
import pathlib
import re

FUNCTION = re.compile(r"^([ ]*)(?:pub )?(?:extern \"C\" )?fn (\w+)(?:<[^>]*>)?\(", re.M)


def sources(folder):
    for path in sorted(pathlib.Path(folder).glob("crates/*/src/**/*.rt")):
        yield path.relative_to(folder), path.read_text()


def functions(text):
    """name, line, head (signature and contract), body of each function"""
    for found in FUNCTION.finditer(text):
        indent = found.group(1)
        end = re.compile(rf"^{indent}}}$", re.M).search(text, found.end())
        whole = text[found.start():end.end() if end else len(text)]
        opened = re.search(rf"^{indent}{{$|[)\w>\]] {{$", whole, re.M)
        cut = opened.end() if opened else len(whole)
        yield found.group(2), text.count("\n", 0, found.start()) + 1, whole[:cut], whole[cut:]


def structs(text):
    for found in re.finditer(r"^pub struct (\w+)[^{\n]*\{\n(.*?)^\}|^struct (\w+)[^{\n]*\{\n(.*?)^\}", text, re.M | re.S):
        name, body = found.group(1) or found.group(3), found.group(2) or found.group(4)
        yield name, text.count("\n", 0, found.start()) + 1, re.findall(r"^\s*(?:pub )?(\w+): ([^,]+),$", body, re.M)


def parameters(head):
    inside = re.search(r"\((.*?)\)\s*(?:->|\n|\{)", head, re.S)
    return re.findall(r"(?:mut )?(\w+): ([^,\n]+)", inside.group(1)) if inside else []


def refusal_numbers(place, name, head, body):
    if re.search(r"-> u64", head) and re.search(r"return ([1-9]\d?|no);|\b(19|0)\n\}$", body):
        yield f"{place}: fn {name} answers the number of a refusal or of a kind"


def one(path, text):
    for name, line, fields in structs(text):
        if len(fields) > 1:
            for field, kind in fields:
                if kind == "bool":
                    yield f"{path}:{line}: struct {name}: flag {field} beside a value"
                if field in ("number", "stage", "start") and kind == "u64" and name != "Plant":
                    yield f"{path}:{line}: struct {name}: {field} is a number for a refusal or a kind"
    for name, line, head, body in functions(text):
        yield from refusal_numbers(f"{path}:{line}", name, head, body)
        for found in re.finditer(r"\b(no|number|\w+\.number|\w*number\([^)]*\)|stage|\w+\.stage|start) (==|!=|<) (\d+)|\b2 < \w+\.stage", body):
            yield f"{path}:{line + head.count(chr(10)) + body[:found.start()].count(chr(10))}: fn {name} compares a number: {found.group(0)}"


def shape(body):
    words = re.sub(r"//.*", "", body)
    words = re.sub(r"\b(u8|u32|u64|i64|usize)\b", "T", words)
    words = re.sub(r"\b\d[\d_]*(u64|i64|usize|u8)?\b", "N", words)
    names = {}
    keep = {"let", "mut", "if", "else", "while", "for", "in", "return", "as", "T", "N", "true", "false", "match", "len", "self"}
    return re.sub(r"\b[A-Za-z_]\w*\b", lambda w: w.group(0) if w.group(0) in keep else names.setdefault(w.group(0), f"x{len(names)}"), re.sub(r"\s+", " ", words))


def two(folder):
    shapes = collections.defaultdict(list)
    for path, text in sources(folder):
        for name, line, head, body in functions(text):
            if body.count("\n") >= 4:
                shapes[shape(body)].append(f"{path}:{line} {name}")
    for places in shapes.values():
        if len(places) > 1:
            yield "same shape: " + ", ".join(places)


def indexed(text):
    """`for i in a..b` whose body has i in the brackets of an index alone"""
    for found in re.finditer(r"^( *)for (\w+) in [^\n]*\.\.[^\n]*\{$", text, re.M):
        end = re.compile(rf"^{found.group(1)}}}$", re.M).search(text, found.end())
        body = text[found.end():end.start()]
        uses = len(re.findall(rf"\b{found.group(2)}\b", body))
        inside = sum(len(re.findall(rf"\b{found.group(2)}\b", index)) for index in re.findall(r"\w\[([^][]*)\]", body))
        if uses and uses == inside:
            yield text.count("\n", 0, found.start()) + 1, found.group(0).strip()


def three(path, text):
    for number, line in enumerate(text.splitlines(), 1):
        if re.match(r"\s*while ", line):
            yield f"{path}:{number}: {line.strip()}"
    for number, line in indexed(text):
        yield f"{path}:{number}: {line}"


def four(path, text):
    for name, line, head, body in functions(text):
        if re.search(r"_of$|^(wide|digit)$|_kept$", name) and re.search(r"->", head) and body.count("\n") <= 22 and not re.search(r"while|for ", body):
            given = len(parameters(head))
            if given <= 2 or given == 3 and re.search(r"-> [A-Z]", head):
                yield f"{path}:{line}: fn {name}: a conversion"
        if re.match(r"is_(open|blank)$", name):
            yield f"{path}:{line}: fn {name}: an equality"
        if re.match(r"write_(figure|signed_figure)$|figure_length$", name) or name == "write" and "text: &mut [u8]" in head and ";\n" not in head:
            yield f"{path}:{line}: fn {name}: printing"


def facts(head):
    for clause in re.findall(r"requires[^{]*\{(.*?)\}\n", head, re.S):
        for fact in clause.split("×"):
            yield re.sub(r"[()\s]+", " ", fact).strip()


def five(folder):
    repeated, together = collections.defaultdict(list), collections.defaultdict(list)
    for path, text in sources(folder):
        for name, line, head, _ in functions(text):
            for fact in set(facts(head)):
                repeated[fact].append(f"{path}:{line} {name}")
            names = [n for n, _ in parameters(head)]
            for i in range(len(names) - 1):
                together[(names[i], names[i + 1])].append(f"{path}:{line} {name}")
    for fact, places in repeated.items():
        if len(places) >= 3:
            yield f"fact in {len(places)} contracts: {fact}"
    for pair, places in together.items():
        if len(places) >= 3:
            yield f"parameters {pair[0]}, {pair[1]} together in {len(places)} functions"


def six(path, text):
    for name, line, head, _ in functions(text):
        given = parameters(head)
        for (n, kind), (m, other) in zip(given, given[1:]):
            if kind == "usize" and n in ("n",) and "[" in other:
                yield f"{path}:{line}: fn {name}: {n} is the length of {m}"
        columns = [n for n, kind in given if kind == "&[u64]" and n in ("submarket", "number", "guarantee", "loss", "availability")]
        if len(columns) > 1:
            yield f"{path}:{line}: fn {name}: parallel lists {', '.join(columns)}"
        # (of the columns of a plant table nobody takes the sum: those are sums of the statement's)
        if any(n == "columns" and "u64]" in kind for n, kind in given) and "sum columns.now" not in head:
            yield f"{path}:{line}: fn {name}: five columns in one list"


def seven(path, text):
    for name, line, head, body in functions(text):
        steps = re.findall(r"if \w+(?:\.stage)? (?:==|<) ?\S* \{\n\s*return \w+\(", body)
        if len(steps) > 1 or re.search(r"\bfn\(|dyn ", head):
            yield f"{path}:{line}: fn {name}: {len(steps)} tests on which step to run"


def eight(folder):
    for path in sorted(pathlib.Path(folder).glob("crates/*/proofs/**/Answers.antt")):
        text = path.read_text()
        count = len(re.findall(r"^pub \S+ : goal\.", text, re.M))
        if count:
            yield f"{path.relative_to(folder)}: {count} answers"


def main():
    given = argparse.ArgumentParser(description=__doc__, formatter_class=argparse.RawDescriptionHelpFormatter)
    given.add_argument("--points", default="1,2,3,4,5,6,7,8")
    given.add_argument("--count", action="store_true", help="numbers alone")
    given.add_argument("folder", nargs="?", default=str(pathlib.Path(__file__).resolve().parent.parent))
    options = given.parse_args()
    over_files = {1: one, 3: three, 4: four, 6: six, 7: seven}
    over_folder = {2: two, 5: five, 8: eight}
    for point in map(int, options.points.split(",")):
        if point in over_files:
            places = [place for path, text in sources(options.folder) for place in over_files[point](path, text)]
        else:
            places = list(over_folder[point](options.folder))
        print(f"point {point}: {len(places)}")
        if not options.count:
            for place in places:
                print("  " + place)


if __name__ == "__main__":
    main()
