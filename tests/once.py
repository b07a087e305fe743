"""Holds the crates to two rules: nothing stands that nobody uses, and nothing stands twice.

Used is what is reached by name from what readers and the prover begin with: a contract, an answer to a goal of a function or what a
`#[tactic(..)]` names, a theorem that docs/RULES.md names; and of the code an exported function, `main`, or a call of document 01 for callers
in Rattle. A test makes nothing used, but for what stands in its own file, `tests.rt`. A name that a `use` line takes is used where its file
names it. Twice is a run of six lines that stands in two places, a law that states what another states but for the names of its variables, a
law that only hands on another, and a record or struct with another's fields. And no function's proof walks the code by hand. The last line is
'N passed, M failed'.

Names are looked up as words: a lemma that has the name of a local variable of its file passes, and so does a function that has the name of a
method which any crate calls. `.into()` and `from` use each `From` whose two types are at hand there: the function names them, or has them by a field or a call. Whether fields, constructors, structs and constants are used is not held, nor copies of code or proofs with other
names in them. Laws are compared with the modules around them as they are written: one that is an instance of another passes. A law only hands
on another where its one clause is that law, of the same conclusion, with words and fields as arguments, and where it is `pub` and no argument
is a law of its file, or is cited there once, or where two hand on the same law. Files of functions' proofs are not looked at for it, nor a law
that is cited through a module's name."""
import collections
import functools
import itertools
import re
import sys

from repository import CRATES, MARKS, ROOT, check, counted, declared, functions_of, rows

WORD = re.compile(r"[^\s(){}.;,@\"«»]+")
# `r.bytes`, `(f x).0.valid`: a field that is taken is no name; `laws.promised` is one, where a `use` line calls a module `laws`.
TAKEN = re.compile(r"((?<![^\s(){};,])[^\s(){}.;,]+|\))((?:\.[^\s(){}.;,]+)+)")
SIX = 6
# A line that says nothing by itself: `use`, an argument or a lemma on a line of its own; a field that stays as it was, since antt
# has no update of a record; the frame of a function's proof, and there an answer that is at hand or left to `search`.
BARE = re.compile(
    r"(ghost |pub )?use |(pub )?mod |(&mut |&)?\w+(\.\w+)*(\[[^]]*\])?,$|[\w-]+\)*$|(?P<field>\w+) = \w+\.(?P=field);$"
    r"|(abbrev |pub )*\S+ :( goal\.\S+)?$|goal\.\S+$|\S+ (g )?(c|_) = (refl|tt|search [\w-]+|omega arith|c(\.[\w-]+)+)$"
)
# What document 01 names, or an earlier landing promised, and nothing in this repository calls: it is for callers in Rattle.
PUBLIC = {
    ("file_calls", "feed_list"): "for a plant table in a list of any length: the program keeps an array, C columns",
    ("file_calls", "finish_list"): "likewise",
    ("lines", "field"): "hands back a part of the line, which cannot cross to C",
    ("records", "plants_of"): "the rows of C's columns as a list: a month file reads them one by one, where they lie",
    ("records", "put_plants"): "likewise, written back",
    ("transfer", "column_sum"): "document 01 has the table 'summed by rows and columns'; the rules sum rows alone",
}


def place(path, line):
    return f"{path.relative_to(ROOT)}:{line}"


def reached(roots, cited):
    seen, todo = set(), list(roots)
    while todo:
        one = todo.pop()
        if one not in seen:
            seen.add(one)
            todo.extend(cited(one))
    return seen


# ---- definitions and laws


def home(module):
    """The file of a module of ours, in this crate or from another."""
    found = re.match(r"Rattle\.(\w+)\.(specs|proofs)\.(.+)", module)
    return found and CRATES / found[1] / found[2] / (re.sub("[«»]", "", found[3]).replace(".", "/") + ".antt")


class Source:
    """A file: the words of each declaration, and what its other words mean. All contracts of a file of code are one declaration, ''."""

    def __init__(self, path):
        self.names, self.modules = {}, {}
        self.words, self.line, self.fields, self.shows = collections.defaultdict(set), {}, {}, {}
        self.last, self.answers, self.asked = None, [], []
        self.code_words, self.taken = set(), set()
        if path.suffix == ".rt":
            self.code(path, re.sub("//.*", "", path.read_text()))
        else:
            self.text(re.sub("--.*", "", path.read_text()))

    def code(self, path, text):
        # a list of what is taken, and a clause, may stand on several lines
        text = re.sub(r"^((?:ghost |pub )?use [^;]*);", lambda found: " ".join(found[0].split()).replace("{ ", "{").replace(", }", "}"), text, flags=re.M)
        open_braces = 0
        for line in text.splitlines():
            if line.startswith("ghost use "):
                self.use(line[6:].rstrip(";"))
            elif taken := re.match(r"use (?:\w+::)*(?:(\w+)|{(.*)});", line):
                self.taken.update([taken[1]] if taken[1] else taken[2].split(", "))
            elif open_braces or re.match(r" *(?:requires|ensures|(?:pub )?ghost)\b", line):
                clause = line if open_braces else re.sub(r" *(?:requires|ensures|(?:pub )?ghost)(?: \w+)?(?= {|:| =|$)", "", line)
                self.words[""].update(self.words_of(clause))
                open_braces += clause.count("{") - clause.count("}")
            else:
                # `using(crate::proofs::File::law)` and `unfolding(..)` cite too
                if line.lstrip().startswith(("#[tactic", "#![tactic")):
                    for crate, part, file, name in re.findall(r"(\w+)::(specs|proofs)::((?:\w+::)*\w+)::(\w+)", line):
                        folder = CRATES / (crate_of(path) if crate == "crate" else crate)
                        self.asked.append((folder / part / (file.replace("::", "/") + ".antt"), name))
                self.code_words.update(re.findall(r"\w+", line))

    def words_of(self, line):
        """The words of a line of antt, with no field that is taken."""
        plain = TAKEN.sub(lambda found: found[1] + (" " + found[2].split(".")[1] if found[1] in self.modules else ""), line)
        return WORD.findall(plain)

    def text(self, text):
        around, heading = [], False
        for number, line in enumerate(text.splitlines(), 1):
            indent = len(line) - len(line.lstrip())
            if not line.strip():
                continue
            if not heading:
                while around and indent <= around[-1][0]:
                    around.pop()
            level = around[-1][0] + 2 if around else 0
            if heading or indent == level and line.lstrip().startswith("module "):
                if not heading:
                    around.append((indent, set()))
                around[-1][1].update(self.words_of(line))
                heading = not line.rstrip().endswith("where")
            elif line.startswith("use "):
                self.use(line)
            else:
                self.one(line.strip(), number, indent == level, around)

    def one(self, line, number, first, around):
        name = declared(line)
        if first and name:
            self.last = name
            self.line.setdefault(name, number)
            if re.match(MARKS + "record ", line):
                self.fields[name] = set()
            # what the modules around it take is said of it too
            self.words[name].update(*(words for _, words in around))
            if shown := re.match(MARKS + r"\S+ : (\w+)$", line):
                self.shows[name] = shown[1]
        elif name and self.last in self.fields:
            self.fields[self.last].add(name)
        # what the prover asks for by its name
        if self.last and re.fullmatch(rf"(?:.* : )?goal\.{re.escape(self.last)}", line):
            self.answers.append(self.last)
        if self.last:
            self.words[self.last].update(self.words_of(line))

    def use(self, line):
        if some := re.match(r"use (\S+)\.\{(.*)\}$", line):
            for part in some[2].split(", "):
                name, _, other = part.partition(" as ")
                self.names[other or name] = (home(some[1]), name)
        else:
            module, other = re.match(r"use (\S+)(?: as (\S+))?$", line).groups()
            self.modules[other or module.rpartition(".")[2]] = home(module)


@functools.cache
def sources():
    files = [path for part in ("src/**/*.rt", "specs/**/*.antt", "proofs/**/*.antt") for path in sorted(CRATES.glob(f"*/{part}"))]
    return {path: Source(path) for path in files}


def stands(name, words):
    """An operator's parts stand apart."""
    return name in words or "◌" in name and all(part in words for part in name.split("◌") if part)


def cited(one):
    path, name = one
    source = sources()[path]
    words = source.words[name]
    found = [(path, other) for other in source.line if stands(other, words)]
    found += [target for other, target in source.names.items() if stands(other, words)]
    for other, target in source.modules.items():
        if other in words and target in sources():
            found += [(target, inner) for inner in sources()[target].line if inner in words]
    # a claim of specs/ and the theorem that shows it
    if path.parts[-2] == "specs":
        found += [(proof, theorem) for proof, theorem in shown().get((crate_of(path), name), ())]
    return [(path, name) for path, name in found if path in sources() and name in sources()[path].line]


def crate_of(path):
    return path.relative_to(CRATES).parts[0]


@functools.cache
def shown():
    found = collections.defaultdict(list)
    for path, source in sources().items():
        for name, claim in source.shows.items():
            found[crate_of(path), claim].append((path, name))
    return found


def named():
    """What a row of docs/RULES.md names in its proof: a theorem, or a field of the claim that one shows."""
    for cells in rows():
        crates = re.findall(r"`(\w+)` ", cells[2])
        names = set(re.findall(r"`([a-z][\w·-]*)(?: [^`]*)?`", cells[4]))
        for path, source in sources().items():
            if crate_of(path) in crates:
                yield from ((path, name) for name in source.line if names & {name, *source.fields.get(name, ())})


def laws():
    """Every definition and law is used."""
    roots = list(named())
    for path, source in sources().items():
        if path.suffix == ".rt":
            roots += [(path, ""), *source.asked] if path.name != "tests.rt" else []
        elif path.name == "Proof.antt":
            roots.append((path, source.last))
        else:
            roots += [(path, name) for name in source.answers]
    seen = reached(roots, cited)
    for path, source in sources().items():
        for name, line in source.line.items():
            yield (path, name) in seen, f"{place(path, line)}: nothing that is used names {name}"


def imports():
    """Every name that a `use` line takes is named in its file."""
    for path, source in sources().items():
        words = set().union(*source.words.values())
        for name in [*source.names, *source.modules]:
            yield stands(name, words), f"{path.relative_to(ROOT)}: a `use` line takes {name}, which nothing there names"
        for name in sorted(source.taken):
            yield name in source.code_words, f"{path.relative_to(ROOT)}: a `use` line takes {name}, which nothing there names"


# ---- functions


def functions():
    """Every function is used."""
    calls, at, roots = {}, {}, set()
    for path in sorted(CRATES.glob("*/src/**/*.rt")):
        crate = crate_of(path)
        uses = re.findall(r"^(?:pub )?use (\w+)::(?:\w+::)*(?:(\w+)|{([^}]*)});", path.read_text(), re.M)
        used = {name: of for of, one, many in uses for name in ([one] if one else re.findall(r"\w+", many))}
        if path.name == "tests.rt":
            yield from tested(path)
            continue
        for name, exported, line, lines in functions_of(path):
            one = (crate, made(path, line) if name == "from" else name)
            at.setdefault(one, place(path, line))
            calls.setdefault(one, set()).update(called(re.sub("//.*", "", "\n".join(lines)), crate, used))
            # a type that is copied has a `clone`, which nothing need call
            copied = name == "clone" and re.search(r"^impl(?:<[^>]*>)? Copy for ", path.read_text(), re.M)
            if exported or name == "main" or one in PUBLIC or copied:
                roots.add(one)
    seen = reached(roots, lambda one: (other for other in calls[one] if other in calls))
    for one, where in at.items():
        yield one in seen, f"{where}: nothing that is used calls {one[1]}"
    others = reached(roots - set(PUBLIC), lambda one: (other for other in calls[one] if other in calls))
    for one in PUBLIC:
        yield one in calls, f"no function {one[1]} in {one[0]}, which this script lists as a public call"
        yield one not in others, f"{one[1]} of {one[0]} is called, so this script need not list it"


def tested(path):
    """Every function of a file of tests is a test, or a test calls it."""
    text = path.read_text().splitlines()
    calls = {name: set(re.findall(r"(?<!::)\b(\w+)\(", "\n".join(lines[1:]))) for name, _, _, lines in functions_of(path)}
    tests = {name for name, _, line, _ in functions_of(path) if text[line - 2].strip() == "#[test]"}
    seen = reached(tests, lambda name: calls[name] & calls.keys())
    for name, _, line, _ in functions_of(path):
        yield name in seen, f"{place(path, line)}: no test calls {name}"


def made(path, line):
    """The `From<A> for B` of a `from` at a line: there are many of that name."""
    return next(found[1] for text in reversed(path.read_text().splitlines()[:line]) if (found := re.match(r"impl(?:<[^>]*>)? (From<.* for \w+)", text)))


@functools.cache
def types():
    """Of each type that a crate declares the words of its fields; of each function those of its parameters and its answer; and each `From`."""
    fields, signatures, conversions = collections.defaultdict(set), collections.defaultdict(set), []
    for path in sorted(CRATES.glob("*/src/**/*.rt")):
        text = re.sub("//.*", "", path.read_text())
        for name, inside in re.findall(r"^(?:pub )?(?:struct|enum) (\w+)[^{;]*{(.*?)^}", text, re.M | re.S):
            fields[name].update(re.findall(r"\w+", inside))
        for function in functions_of(path):
            signatures[function.name].update(re.findall(r"\w+", re.split(r"\b(?:requires|ensures)\b|{", "\n".join(function.lines))[0]))
        conversions += [(crate_of(path), found) for found in re.findall(r"^impl(?:<[^>]*>)? (From<.* for \w+)", text, re.M)]
    return fields, signatures, conversions


def converted(text):
    """Each `From` of which a function may have both types at hand: it names them, or a type with such a field, or calls what takes or answers them."""
    fields, signatures, conversions = types()
    words = set(re.findall(r"\w+", text))
    words = words.union(*(fields[word] for word in words & fields.keys()), *(signatures[word] for word in words & signatures.keys() - {"from", "into"}))
    return [(crate, one) for crate, one in conversions if fields.keys() & set(re.findall(r"\w+", one)) <= words]


def called(text, crate, used):
    """A path begins with a crate, or with what this crate has or takes by `use`; a method may be any crate's, but for `.into()` and `from`."""
    for before, path, name in re.findall(r"(\.)?((?:\w+::)*)(\w+)\(", text.partition("\n")[2]):
        first = path.split("::")[0] or name
        if name == ("into" if before else "from"):
            yield from ((home, one) for home, one in converted(text) if before or f"::{path}".endswith(f"::{one.split()[-1]}::"))
        elif before:
            yield from ((folder.name, name) for folder in CRATES.iterdir())
        elif path and (CRATES / first).is_dir():
            yield (first, name)
        else:
            yield (crate if used.get(first, "crate") == "crate" else used[first], name)


# ---- what stands twice


def walks():
    """No function's proof walks the code by hand: each has answers to the goals that the prover names, or none."""
    for path in sources():
        if path.suffix == ".antt" and not {"specs", "proofs"} & {path.parent.name}:
            yield path.name in ("Answers.antt", "Invariants.antt"), f"{place(path, 1)}: a proof by hand"


def told(path):
    """The lines that say something, each with its number: no blank, comment, `use` or lone punctuation, no parameter or argument
    on a line of its own, and none that leaves a need to `search`."""
    parameters = False
    for number, line in enumerate(path.read_text().splitlines(), 1):
        line = " ".join(re.sub("(--|//).*", "", line).split())
        parameters = re.match(r"(pub )?(extern \"C\" )?fn .*\($", line) or parameters and not line.startswith(")")
        if re.search(r"\w", line) and not parameters and not BARE.match(line):
            yield number, line


def runs(texts):
    """Each run of six lines or more that stands in several places, the longest first: its places, each a file and a line's index, and its length."""
    found = collections.defaultdict(list)
    for path, lines in texts.items():
        for at in range(len(lines) - SIX + 1):
            found[tuple(line for _, line in lines[at : at + SIX])].append((path, at))
    places = {tuple(where) for where in found.values() if len(where) > 1}
    for where in places:
        if moved(where, -1) not in places:
            long = SIX
            while moved(where, long - SIX + 1) in places:
                long += 1
            yield long, where


def moved(where, by):
    return tuple((path, at + by) for path, at in where)


def twice():
    """No file says what another place says."""
    texts = {path: list(told(path)) for path in sources()}
    seen = set()
    for long, where in sorted(runs(texts), reverse=True):
        lines = {(path, at + more) for path, at in where for more in range(long)}
        if not lines <= seen:
            yield False, f"{long} lines stand at each of " + ", ".join(place(path, texts[path][at][0]) for path, at in where)
            seen |= lines
    for path in texts.keys() - {path for path, _ in seen}:
        yield True, path


# ---- laws and records

# What a declaration gives that is no law: a value of one of these.
VALUES = {"ℕ", "ℤ", "List", "Bool", "Type", "Plant", "Hour", "Ledger", "Month", "MonthFile", "Kept", "Ended", "OpenEnd", "SettleEnd", "Place"}


def blocks(lines):
    """Each line with those below it that are indented further, as one line: its number, its indent, and the whole."""
    depths = [len(line) - len(line.lstrip()) for line in lines]
    for at, line in enumerate(lines):
        below = itertools.takewhile(lambda k: depths[k] > depths[at] and not lines[k].lstrip().startswith("unfolding"), range(at + 1, len(lines)))
        if line.strip():
            yield at + 1, depths[at], " ".join([line.strip(), *(lines[k].strip() for k in below)])


def statements(path):
    """The laws of a file, each with its line and what it states, the parameters of the modules around it before it."""
    around = []
    for number, indent, text in blocks(re.sub("--.*", "", path.read_text()).splitlines()):
        around = [(depth, given) for depth, given in around if depth < indent]
        if text.startswith("module _ "):
            around.append((indent, text[9:].partition(" where")[0]))
        elif not re.match(r"((pub|private) )*(abbrev|unfoldable|record|data|ruleset|let) ", text) and declared(text):
            stated = text.split(" : ", 1)[1]
            if stated.rpartition("→ ")[2].split(" ")[0] not in VALUES:
                yield number, " → ".join([given for _, given in around] + [stated])


def conclusion(statement):
    """What stands behind the last arrow that no bracket holds."""
    depth, end = 0, 0
    for found in re.finditer(r"[(){}]|→", statement):
        depth += (found[0] in "({") - (found[0] in ")}")
        if depth == 0 and found[0] == "→":
            end = found.end()
    return statement[end:].strip()


def unnamed(statement, part):
    """A part of a statement with the statement's variables numbered in the order in which they come."""
    bound = {name for group in re.findall(r"[({]([^(){}:]+?) : ", statement) for name in group.split()}
    bound |= {name for group in re.findall(r"λ ([^.]*)\.", statement) for name in re.sub(r"[(){}]|: [^()]*", "", group).split()}
    numbers = {}
    return re.sub(
        r"(?<![\w.])[^\s(){}.,;]+", lambda word: f"v{numbers.setdefault(word[0], len(numbers))}" if word[0] in bound else word[0], part
    ).translate(str.maketrans("{}", "()"))


def fields(path):
    """The records and structs of a file, each with its line and its fields."""
    for number, _, text in blocks(re.sub("(--|//).*", "", path.read_text()).splitlines()):
        if found := re.match(r"(?:pub )?(?:record .* where|struct \w+ {) (.*)", text):
            yield number, tuple(sorted(re.split(r" ?pub |, ?pub ", " " + found[1].rstrip("}, "))[1:]))


def said(what, found):
    """Nothing that is found in the files is found in another place."""
    places = collections.defaultdict(list)
    for path in sources():
        for number, one in found(path):
            places[one].append(place(path, number))
    for where in places.values():
        yield len(where) == 1, f"one {what} stands at each of " + ", ".join(where)


def laws_of(path):
    if path.parent.name == "proofs":
        yield from ((number, unnamed(one, one)) for number, one in statements(path) if "→" in one)


class Laws:
    """The laws of a file of proofs: of each its line, its conclusion, whether others may cite it, and the bodies of its clauses."""

    def __init__(self, path):
        lines = re.sub("--.*", "", path.read_text()).splitlines()
        self.line, self.says, self.public, self.bodies = {}, {}, set(), collections.defaultdict(list)
        for number, one in statements(path):
            name = declared(lines[number - 1].strip())
            self.line[name], self.says[name] = number, unnamed(one, conclusion(one))
            if lines[number - 1].strip().startswith("pub "):
                self.public.add(name)
        for _, _, text in blocks(lines):
            if (clause := re.match(r"(\S+)(?: [^=]*)? = (.*)", text)) and clause[1] in self.line and not declared(text):
                self.bodies[clause[1]].append(clause[2])


def handing():
    """Every law with one clause that is another law, of the same conclusion, with words and fields as its arguments."""
    found = {path: Laws(path) for path in sources() if path.parent.name == "proofs"}
    for path, here in found.items():
        for name, bodies in here.bodies.items():
            if len(bodies) == 1 and (other := re.fullmatch(r"([^\s(){}]+)((?: [^\s(){}]+| \([^\s(){}]+(?: \.\w+)+\))*)", bodies[0])):
                home_of, law = sources()[path].names.get(other[1], (path, other[1]))
                if home_of in found and law != name and here.says[name] == found[home_of].says.get(law):
                    yield path, here, name, (home_of, law), set(other[2].split()) & here.line.keys()


def handed():
    """No law only hands on another: one that others may cite instead, that is cited once, or that is handed on at two places."""
    found = list(handing())
    for path, here, name, law, laws_in in found:
        cites = sum(len(re.findall(rf"(?<![\w-]){re.escape(name)}(?![\w′-])", body)) for body in itertools.chain(*here.bodies.values()))
        only = name in here.public and not laws_in or cites < 2 and name not in here.public
        again = sum(other == law for _, _, _, other, _ in found) > 1
        yield not only and not again, f"{place(path, here.line[name])}: {name} only hands on {law[1]}"


def records_of(path):
    yield from ((number, one) for number, one in fields(path) if len(one) > 1)


def main():
    for good, what in itertools.chain(laws(), imports(), functions(), walks(), twice(), said("law", laws_of), handed(), said("list of fields", records_of)):
        check(good, what)
    return counted()


if __name__ == "__main__":
    sys.exit(main())
