#!/usr/bin/env python3
"""Turns a proof of the older kit, which answers by position (`tie.spec a b c ..` in proofs/F/Proof.antt), to today's form, which answers by the
goals' names (Invariants.antt and Answers.antt). The port used it; work that was drafted for the older kit can use it too, once the kit's
port.py and respell.py have turned its spelling.

usage: answers.py CRATE [FUNCTION..]      at the top of the repository; the crates below CRATE have to be proved

The old file goes to target/older. What this script can't tell it says, or writes `??` in its place. Then it checks the crate, and puts back each
answer by a bare `search` for which the check finds none by itself, until nothing more comes; what is left is for the author.
"""

import glob
import json
import os
import re
import shutil
import subprocess
import sys
import tempfile

NAME = r"[^\s(){}.;,@\"«»\[\]]+"
WHOLE = rf"(?<![\w.\-'?]){{}}(?![\w.\-'])"
BARE = re.compile(r"\(?search \(?[\w, ]+\)?( depth \d+( fits \d+)?)?\)?")
OF_THE_START = {"args", "requires", "lifetimes", "well_formed", "ranges", "type_inv"}
DECLARED = re.compile(rf"(use|abbrev|unfoldable|pub|module|open|record|data|ruleset)\s|{NAME}( \{{[^}}]*\}})? :(\s|$)")


def alike(name):
    return re.sub("[-_]", "", name).lower()


def read(path):
    with open(path, encoding="utf-8") as it:
        return it.read()


# ---- the sources: parameters and names of clauses


class Sources:
    """Of each function of the repository, by its name: the parameters, and the names of its clauses."""

    def __init__(self):
        self.functions = {}
        for path in glob.glob("crates/*/src/**/*.rt", recursive=True):
            text = read(path)
            for found in re.finditer(r"\bfn (\w+)(?:<[^>]*>)?\(", text):
                end = self.closed(text, found.end() - 1)
                parameters = [part.split(":")[0].replace("mut ", "").strip() for part in parts(text[found.end() : end])]
                clauses = re.match(r"\)?(?: -> [^\n]*)?\n((?:\s+(?:requires|ensures)[^\n]*\n)*)", text[end:])
                named = {kind: re.findall(rf"(?m)^\s+{kind} (\w+) \{{", clauses[1] if clauses else "") for kind in ("requires", "ensures")}
                self.functions.setdefault(found[1], {})[path.split("/")[1]] = (parameters, named)

    @staticmethod
    def closed(text, at):
        depth = 0
        for i in range(at, len(text)):
            depth += (text[i] in "([{") - (text[i] in ")]}")
            if depth == 0:
                return i
        return len(text)

    def of(self, function, crate):
        found = self.functions.get(function, {})
        return found.get(crate) or next(iter(found.values()), ([], {"requires": [], "ensures": []}))


def parts(text, mark=","):
    """The parts of a text between marks that stand in no brackets."""
    found, depth, part = [], 0, ""
    for sign in text:
        depth += (sign in "([{") - (sign in ")]}")
        if sign == mark and depth == 0:
            found.append(part.strip())
            part = ""
        else:
            part += sign
    return found + ([part.strip()] if part.strip() else [])


def by_clause(text, path, names):
    """`path.0`, `path.1.0`, .. by the names of the clauses; a pair of the older kit nests to the right."""
    if len(names) < 2:
        return text

    def named(found):
        at, steps = 0, found[1].split(".")
        if 2 <= int(steps[0]) < len(names):
            at, steps = int(steps[0]), steps[1:]
        while steps and at < len(names) - 1 and steps[0] in "01":
            first, steps = steps[0], steps[1:]
            if first == "0":
                break
            at += 1
        return ".".join([path, names[at], *steps])

    return re.sub(rf"(?<![\w.\-']){re.escape(path)}\.(\d+(?:\.\d+)*)", named, text)


def by_record(text, names):
    """A tuple at the end of an answer as a record, where the goal has a field for each clause."""
    depth = start = 0
    for i, sign in enumerate(text):
        depth += (sign in "([{") - (sign in ")]}")
        if depth == 0 and re.match(r"\sin\s", text[i : i + 4]):
            start = i + 4
    last = text[start:].strip()
    start += text[start:].index(last)
    given = parts(last[1:-1]) if last.startswith("(") and last.endswith(")") else []
    while given and len(given) < len(names) and given[-1].startswith("(") and given[-1].endswith(")"):
        given = given[:-1] + parts(given[-1][1:-1])
    if len(names) < 2 or len(given) != len(names):
        return text
    return text[:start] + "record {\n      " + "".join(f"{name} = {part};\n      " for name, part in zip(names, given)).rstrip() + "\n    }"


# ---- the code's places and steps, by the names of both kits


class Walk:
    def __init__(self, named):
        self.needs, self.asked, self.loops, self.changed = (named[it] for it in ("needs", "asked_at", "loops", "changed"))
        self.places = {place[0]: (place[1], place[2]) for place in named["places"]}
        self.today = {place[0]: new for place, new in zip(named["places"], named["places_by_name"])}

    def above(self, place, befores):
        for _ in range(befores):
            place = self.places[place][0] if place in self.places else None
        return place

    def step(self, place, field):
        """Today's name of a step at a place or above it."""
        while place in self.places:
            above, (old, new) = self.places[place]
            if alike(old) == alike(field):
                return new
            place = above
        return None

    def place(self, name):
        return next((old for old, new in self.today.items() if alike(name) in (alike(old), alike(new))), None)

    def back(self, variable, place, target):
        """From a helper's own record to that of a place above it. Behind a call the record of a place holds that of the walk, one step further back."""
        target, at, befores, called = target or "Start", place, 0, False
        while at in self.places and at != target:
            called |= bool(re.match(r"After-(?!loop|struct)(?!.*known)", self.today[at]))
            at, befores = self.places[at][0], befores + 1
        held = called and "Untold" not in self.places
        if target == "Start" or not held:
            return variable + ".before" * (befores + held)
        return f"{variable}.{self.today.get(target, target)}"


class Proof:
    """One function's proof: read from the older file, written as today's."""

    def __init__(self, crate, folder, named, sources, say):
        self.crate, self.folder, self.walk, self.sources, self.say = crate, folder, Walk(named), sources, say
        self.function = folder.split("/")[-1].lstrip("+")
        self.path = f"crates/{crate}/proofs/{folder}"
        self.head, self.uses, self.measures, self.named, self.helpers, self.given, self.opens = [], [], {}, {}, [], [], []
        self.helped = {}
        text = read(f"{self.path}/Proof.antt")
        for old, new in (("type-inv", "type_inv"), ("well-formed", "well_formed"), (".pre.", ".requires.")):
            text = text.replace(old, new)
        for above, block in self.declarations(text):
            self.take(above, block)

    @staticmethod
    def declarations(text):
        above, lines, i = [], text.split("\n"), 0
        while i < len(lines):
            if lines[i].startswith("--") or not lines[i].strip():
                above.append(lines[i])
                i += 1
                continue
            end = i + 1
            while end < len(lines) and not (lines[end][:1].strip() and (lines[end].startswith("--") or DECLARED.match(lines[end]))):
                end += 1
            yield [line for line in above if line.strip()], "\n".join(lines[i:end]).rstrip().split("\n")
            above, i = [], end

    def take(self, above, block):
        text = "\n".join(block)
        if block[0].startswith("use "):
            self.head = self.head or above
            if not re.search(r"\.Statement\.\{statement\}| as tie$", block[0]) or "/specs" in block[0]:
                self.uses.append(text)
            return
        name = re.match(rf"(?:abbrev |pub |unfoldable )*({NAME})", block[0])[1]
        typed = re.match(rf"(?:abbrev |pub |unfoldable )*{NAME} : tie\.(invariant|decreases|Need)-?({NAME})?", block[0])
        if "tie.spec" in text:
            inside = text[text.index("tie.spec") + len("tie.spec") :]
            self.given = self.arguments(inside[: Sources.closed("(" + inside, 0) - 1])
            self.opens = [line for line in block if line.startswith("unfolding")]
        elif typed and typed[1] == "Need":
            self.named[name] = (typed[2], above, block[1:])
        elif typed:
            self.measures[name] = (typed[1], above, block[1:])
        else:
            self.helpers.append((name, above, text))

    @staticmethod
    def arguments(text):
        """What stands at each position, with the comment behind it, which names the goal."""
        found = []
        for line in text.split("\n"):
            code, _, label = line.partition("-- ")
            found += [[part, ""] for part in (parts(code.strip(), " ") if not found or Proof.balanced(found[-1][0]) else []) if part]
            if not Proof.balanced(found[-1][0] if found else "") and not found[-1][0].endswith(code.strip()):
                found[-1][0] += "\n" + code
            if label and found:
                found[-1][1] = label.split()[0]
        return found

    @staticmethod
    def balanced(text):
        return sum((sign in "([{") - (sign in ")]}") for sign in text) == 0

    # ---- one term

    def turned(self, text, place, goal):
        """A term of the older proof. `goal` is today's name of the goal that it answers, or None in a helper, whose record is c."""
        known, done, at = {"c": place}, "", 0
        bound = re.compile(rf"let ({NAME}) = ({NAME})((?:\.before)*) in\s*")
        path = re.compile(rf"(?<![\w.\-'])({NAME})((?:\.{NAME})+)")
        while at < len(text):
            let, cited = bound.search(text, at), path.search(text, at)
            if let and let[2] in known and (not cited or let.start() <= cited.start()):
                known[let[1]] = self.walk.above(known[let[2]], let[3].count("before"))
                done, at = done + text[at : let.start()], let.end()
            elif cited:
                done += text[at : cited.start()] + (self.cited(known, place, cited, goal) if cited[1] in known else cited[0])
                at = cited.end()
            else:
                done, at = done + text[at:], len(text)
        for name, of in known.items():
            if name != "c":
                done = re.sub(WHOLE.format(re.escape(name)) + "(?! = )", lambda _: self.record(place, of, goal), done)
        return self.in_todays_words(done)

    def record(self, place, target, goal):
        return f"(goal.at.{goal} c).{self.walk.today.get(target, 'Start')}" if goal else self.walk.back("c", place, target)

    def cited(self, known, place, found, goal):
        fields = found[2].split(".")[1:]
        befores = next((i for i, field in enumerate(fields) if field != "before"), len(fields))
        at, fields = self.walk.above(known[found[1]], befores), fields[befores:]
        if not fields:
            return self.record(place, at, goal)
        first = fields[0]
        if first not in OF_THE_START:
            first = next((new for of in (at, place) for word in (first, first.removesuffix("_lem")) if (new := self.walk.step(of, word))), f"??{first}")
        return ".".join(["c", first, *fields[1:]])

    def in_todays_words(self, text):
        parameters, clauses = self.sources.of(self.function, self.crate)

        def of_a_call(found):
            names = next((names for word in (found[1], found[1].split("-")[0]) if (names := self.sources.of(word, self.crate)[0])), [])
            at = found[3].count("1.")
            return f"{found[1]}.{found[2]}.{names[at]}" if at < len(names) else found[0]

        text = re.sub(rf"({NAME})\.(new|auto)\.((?:1\.)*0)(?![\w.])", of_a_call, text)
        text = re.sub(r"\.args\.t(\d+)(?![\w\-'])", lambda it: f".args.{parameters[int(it[1]) - 1]}" if int(it[1]) <= len(parameters) else it[0], text)
        for name in ["c.requires", *re.findall(rf"let ({NAME}) = c\.requires in", text)]:
            text = by_clause(text, name, clauses["requires"])
        for step in set(re.findall(rf"(?<![\w.\-'])c\.({NAME})\.ensures\.\d", text)):
            names = next((names for word in (step, step.split("-")[0]) if (names := self.sources.of(word, self.crate)[1]["ensures"])), [])
            text = by_clause(text, f"c.{step}.ensures", names)
        # `if !f(..)` hands over what f answered, and no longer its negation
        text = re.sub(r"not-(?:true|false) _ \(?(c\.if-not-[^\s()]*\.(?:true|false))\)?", r"\1", text)
        tested = r"((?:[^()\n]|\([^()]*\))*?c\.if-not-[^\s()]*\.{})"
        text = re.sub(r"(?<!\w)granted " + tested.format("false"), r"called_yes \1", text)
        text = re.sub(r"(?<!\w)refused " + tested.format("true"), r"called_no \1", text)
        return re.sub(r"search (asks|\(asks[^()]*\)) depth (\d+)(?! fits)", r"search \1 depth \2 fits 4000", text)

    # ---- the files

    def invariants(self):
        used = [name for name, _ in self.given if name in self.measures]
        for kind in ("invariant", "decreases"):
            for ((_, loop), variables), changed, name in zip(self.walk.loops, self.walk.changed, [it for it in used if self.measures[it][0] == kind]):
                _, above, block = self.measures[name]
                start = next(i for i, line in enumerate(block) if line.startswith(name + " "))
                parameters, body = re.match(rf"{re.escape(name)} ([^=]*)=\s*(.*)", "\n".join(block[start:]), re.S).groups()
                meant = [f"l.initial.{it}" if new else f"l.{it}" for it, new in zip(variables, changed)] + [f"l.{it}" for it, new in zip(variables, changed) if new]
                if len(parameters.split()) != len(meant):
                    self.say(f"{self.path}: {name} takes {parameters.split()}, and today's loop has {meant}")
                for old, new in zip(parameters.split(), meant):
                    body = re.sub(WHOLE.format(re.escape(old)), "\0" + new[1:], body) if old != "_" else body
                body = body.replace("\0", "l")
                yield "\n".join([*above, f"abbrev pub {kind}-{loop} : goal.{kind}-{loop}", *block[:start], f"{kind}-{loop} l = {body}"])

    def need(self, label):
        return next(((need, at) for need, at in zip(self.walk.needs, self.walk.asked) if alike(label) in map(alike, need)), (None, None))

    def answers(self):
        """Today's name of each goal that is answered, the text, and whether it is a bare search."""
        given = [it for it in self.given if it[0] not in self.measures]
        for i, (term, label) in enumerate(given):
            if len(given) == len(self.walk.needs):
                need, at = self.walk.needs[i], self.walk.asked[i]
            else:
                need, at = self.need(label or self.named.get(term, ("",))[0])
            if need is None:
                if not BARE.search(term):
                    self.say(f"{self.path}: no goal of today is that of {term[:60]} {label}")
                continue
            yield need[1], *self.answer(term, need[1], at[0])

    def answer(self, term, goal, place):
        above, opens, arguments = [], self.opens, ""
        if term in self.named:
            _, above, block = self.named[term]
            opens = [line for line in block if line.startswith("unfolding")]
            clause = "\n".join(line for line in block if not line.startswith("unfolding"))
            bound, body = re.match(rf"{re.escape(term)}((?: {NAME})*?) =\s*(.*)", clause, re.S).groups()
            arguments = "".join(f" {it}" for it in bound.split()[1:] if it not in ("κs", "_"))
            term = body if bound.strip() else f"({body})"
        inside = re.fullmatch(r"\(λ (?:c|_)(?: κs| _)?\.\s*(.*)\)", term, re.S)
        body = inside[1] if inside else f"{term} c" if re.fullmatch(NAME, term) and term not in ("tt", "refl") else term
        body = self.turned(body, place, goal)
        called = re.match(r"(\w+?)(?:-\S+)?-requires", goal)
        clauses = self.sources.of(self.function, self.crate)[1]["ensures"] if goal.startswith("returns") else self.sources.of(called[1], self.crate)[1]["requires"] if called else []
        for name, of in self.helped.items():
            where = f"{name} c" if of == place else f"{name} (goal.at.{goal} c).{self.walk.today[of]}"
            body = re.sub(WHOLE.format(re.escape(name)) + rf" (?:c(?![\w.\-'])|\(goal\.at\.{re.escape(goal)} c\)\.{NAME})", lambda _: where, body)
        text = "\n".join([*above, f"pub {goal} : goal.{goal}", *opens, f"{goal} c{arguments} = {by_record(body, clauses)}"])
        return text, bool(BARE.fullmatch(body.strip()))

    def helping(self):
        """The helpers, and the places whose records they take."""
        texts, used = [], set()
        for name, above, text in self.helpers:
            taken = re.search(rf"\(c : tie\.({NAME})", text) or re.match(rf"(?:abbrev )?{NAME} : tie\.({NAME}) ", text)
            if taken and (place := self.walk.place(taken[1])):
                for of in re.findall(rf"tie\.({NAME})", text):
                    used.add(self.walk.today.get(self.walk.place(of), of))
                text = re.sub(rf"tie\.({NAME})((?: (?:invariant|decreases)-{NAME})*)", lambda it: self.walk.today.get(self.walk.place(it[1]), it[1]), text)
                names = re.findall(rf"(?m)^  (?:abbrev )?({NAME}) :", text) if text.startswith("module") else [name]
                self.helped.update((it, place) for it in names)
                text = self.turned(text, place, None)
            elif taken:
                self.say(f"{self.path}: {name} is of a place that is not there, {taken[1]}")
            texts.append("\n".join([*above, text]))
        return texts, used

    def write(self):
        here = f"Rattle.{self.crate}.proofs.{self.folder.replace('/', '.')}"
        helpers, places = self.helping()
        answers, invariants = list(self.answers()), list(self.invariants())
        older = f"target/older/{self.path}"
        os.makedirs(older, exist_ok=True)
        shutil.move(f"{self.path}/Proof.antt", f"{older}/Proof.antt")
        if invariants:
            self.put("Invariants", "\n\n".join(["\n".join([*self.uses, f"use {here}.Given as goal"]), *invariants]))
        for word in ("called_yes", "called_no"):
            if word in "".join(text for _, text, _ in answers) + "".join(helpers):
                self.uses.append(f"use Rattle.lists.proofs.Questions.{{{word}}}")
        top = [*self.head, *self.uses, f"use {here}.Goals as goal"] + ([f"use {here}.Goals.{{{', '.join(sorted(places))}}}"] if places else [])
        self.start = "\n\n".join(["\n".join(top), *helpers])
        self.bare = {name: text for name, text, bare in answers if bare}
        kept = [text for _, text, bare in answers if not bare]
        if kept:
            self.put("Answers", "\n\n".join([self.start, *kept]))

    def put(self, file, text):
        with open(f"{self.path}/{file}.antt", "w", encoding="utf-8") as it:
            it.write(text + "\n")

    def put_back(self, goals):
        """Adds the bare searches of goals that the check leaves open. Answers whether it had any."""
        path, had = f"{self.path}/Answers.antt", 0
        text = read(path).rstrip("\n") if os.path.exists(path) else self.start
        for goal in goals:
            whole = goal.split("-clause-")[0]
            if whole in self.bare and f"\npub {goal} :" not in text:
                text, had = text + "\n\n" + self.bare[whole].replace(whole, goal), had + 1
        if had:
            self.put("Answers", text)
        return had > 0


def checked(crate, *more):
    return subprocess.run(["rt", "check", *more], cwd=f"crates/{crate}", stdout=subprocess.PIPE, stderr=subprocess.STDOUT, text=True).stdout


def main(crate, wanted):
    with tempfile.TemporaryDirectory() as folder:
        said = checked(crate, "--generated", folder, "--old-names")
        if not os.path.exists(f"{folder}/names.json"):
            sys.exit(said[-2000:])
        named = json.loads(read(f"{folder}/names.json"))
    sources, proofs = Sources(), {}
    for path in sorted(glob.glob(f"crates/{crate}/proofs/**/Proof.antt", recursive=True)):
        folder = os.path.relpath(os.path.dirname(path), f"crates/{crate}/proofs")
        of = named.get(f"Rattle-{crate}-proofs.{folder.replace('/', '.')}.Lts")
        if wanted and folder not in wanted:
            continue
        if of is None or "tie.spec" not in read(path):
            print(f"{path}: no proof by position")
            continue
        proofs[folder] = Proof(crate, folder, of, sources, print)
        proofs[folder].write()
    while True:
        said = checked(crate)
        left = re.findall(r"expected answers in \./proofs/(\S+)/Answers\.antt; `search` did not prove ((?:`[^`]+`(?:, )?)+)", said)
        if not any([proofs[folder].put_back(re.findall("`([^`]+)`", goals)) for folder, goals in left if folder in proofs]):
            break
    print("\n".join(line[:300] for line in said.splitlines() if re.search(r": error: |^fn .*(not proved|no proof)|^logic=", line)))


if __name__ == "__main__":
    if len(sys.argv) < 2:
        sys.exit(__doc__)
    main(sys.argv[1], sys.argv[2:])
