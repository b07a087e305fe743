"""Tries the must-fail edits once more, each over a copy of its crate, and reads what the prover says of it: each wrong answer is refused at
its own place, and there at a fact. (`rt ci` tries them too, and keeps no log: it says of an edit that the crate is refused, and the first place
alone.) The last line is 'N passed, M failed'. With names of crates, their edits alone.

An edit has one or more wrong answers, each in another function, definition or contract and refused at another place, so that the crate is proved again once for all of them:

    # NAME: the fact that no longer holds
    # refused at PLACE
    file: .., old: .., new: ..

PLACE is a file under proofs/, a function's without its /Answers, or specs/FILE. A function's proof reads its own code and the contracts of what it
calls; where a contract or a law that it cites is refused too, the prover says so and not that a fact fails, and this part wants the
fact. So no wrong answer can hide behind another. Goals bear the words of the code: where an edit of a test takes a goal's name away, its answer
is refused for that, which shows nothing; the fact must then fail at a goal that keeps its name and its answer.

The logs stay in target/must-fail, each under a sum of all that it hangs on; a log with that sum is read again and not made again."""
import concurrent.futures
import functools
import hashlib
import os
import pathlib
import re
import shutil
import subprocess
import sys
import tempfile

from repository import CRATES, ROOT, check, counted, listed

LOGS = ROOT / "target" / "must-fail"
# Words for a fact that is not proved: a tactic that does not close its goal, a goal left over, a goal that nothing meets, a proof of
# another fact than the one expected.
FACT = re.compile(
    r"`(omega|search|grind|rw|simp|cc|grw)`(:| does not read)|give a proof of that as the last argument"
    r"|the two (types|values|sides) ((first )?differ|are `)|expected type `[^` ]+ [^`]*`|does not hold \(this comparison"
)
# Two types that differ are both facts, or nothing is shown: where one is that of a value, or a goal by its name, the proof file no longer
# fits the code.
NO_FACT = re.compile(
    r"(expected|has) type `\(*([^` ]*\.)?(ℕ|ℤ|Bool|List|Option|Result|RefT|Array|Type|Month|Settled|Balanced|Ended|Stated|Sized|Worked|Balance|Refusal|MonthFile|FileStage|Plant|Blocks|ReadLine|Start|Table"
    r"|Weights|Rows|LentFile|LentPlants|FileView|LedgerView|HourView|Long|Short|Modulation|Kept|KeptLists)[ `]"
    r"|(expected|has) type `\(*(goal|[^` ]*\.Goals)\.(?!the-)"
)
NO_NAME = re.compile(r"that can be named from here|has no field|is not in scope(?! here, so what is shown)|no module is found")
AFTER = re.compile(r"(was|were) not (admitted|checked)|was rejected")


def wrong_answers(edit):
    """The wrong answers of an edit: name, fact, place."""
    found = []
    for line in edit.read_text().splitlines():
        if named := re.match(r"# (\w+): (.+)", line):
            found.append([named[1], named[2], None])
        elif placed := re.match(r"# refused at (\S+)$", line):
            if found and found[-1][2] is None:
                found[-1][2] = placed[1]
    return found


# ---- what the prover says


def errors(log):
    """The errors of a log, each with its file under the edited crate and its whole text."""
    found = []
    for line in log.splitlines():
        if at := re.match(r"(?:\./)?((?:proofs|specs|src)/\S+?):\d+:\d+: (\w+)", line):
            found.append((at[1], at[2], [line]))
        elif re.match(r"(fn|struct|enum|logic|library|statements|crate|checked|note:|help:|rt:) ?", line):
            found.append(("", "", []))
        elif found:
            found[-1][2].append(line)
    return [(file, "\n".join(text)) for file, kind, text in found if kind == "error"]


def left_open(log, place):
    """The goals of a function for which no answer stands and the prover finds none: it names them right before what it says of the function."""
    goals = []
    for line in log.splitlines():
        if note := re.match(r"note: src/\S+?:\d+:\d+: it is not proved that .*? \(`([^`]+)`\)", line):
            goals.append(note[1])
        elif said := re.match(r"fn \w+::(\S+): (.*)", line):
            if said[1] == place.replace("/", "::").translate(str.maketrans("", "", "«»")) and not said[2].startswith("proved"):
                return goals + re.findall(r"`([^`]+)`", said[2].partition("`search` did not prove ")[2])
            goals = []
    return []


def said_at(log, place):
    at = {f"proofs/{place}.antt", f"{place}.antt", *(f"proofs/{place}/{file}.antt" for file in ("Answers", "Invariants", "Proof"))}
    return [text for file, text in errors(log) if file in at]


def loses_a_name(log, place):
    """Does the edit take a goal's name away too, beside the fact that fails?"""
    return any(NO_NAME.search(text) for text in said_at(log, place))


def refused(log, place):
    """None where the log shows that a fact fails at the place, else why not."""
    here = said_at(log, place)
    if any(FACT.search(text) and not any(other.search(text) for other in (NO_FACT, NO_NAME, AFTER)) for text in here):
        return None
    if any(NO_NAME.search(text) for text in here):
        return f"refused at {place} at a name that is not there"
    if left_open(log, place):
        return None
    return f"refused at {place}, and not at a fact" if here else f"not refused at {place}"


# ---- trying


@functools.cache
def below(crate):
    """The crates of this repository that a crate stands on."""
    direct = [name for name in listed()[crate] if name in listed()]
    return {*direct, *(name for one in direct for name in below(one))}


def edited(edit, crate):
    """Applies an edit as `rt must-fail` does. Answers the texts that were there, or why it cannot be applied."""
    path, old, was = None, None, {}
    for line in edit.read_text().split("\n"):
        if line.startswith("file: "):
            path = crate / line[len("file: ") :].strip()
        elif line.startswith("old: "):
            old = line[len("old: ") :]
        elif line.startswith("new:"):
            text = path.read_text() if path and path.is_file() else ""
            if not old or text.count(old) != 1:
                return was, f"an 'old:' text stands {text.count(old) if old else 0} times in its file"
            was.setdefault(path, text)
            path.write_text(text.replace(old, line[len("new:") :].removeprefix(" ")))
            old = None
    return was, None if was else "it changes nothing"


@functools.cache
def version():
    return subprocess.run(["rt", "version"], capture_output=True, text=True, check=True).stdout


def sum_of(crate, edit):
    """A sum of all that an edit's log hangs on: itself, its crate, those below, the kit."""
    files = [path for name in sorted({crate, *below(crate)}) for part in ("src", "specs", "proofs") for path in sorted((CRATES / name / part).glob("**/*.*"))]
    made = hashlib.sha256(version().encode())
    for path in [edit, *files]:
        made.update(str(path.relative_to(ROOT)).encode() + b"\0" + path.read_bytes() + b"\0")
    return made.hexdigest()


def link_or_copy(one, other):
    try:
        os.link(one, other)
    except OSError:
        shutil.copy2(one, other)


def copied(crate, room):
    """Copies a crate and those below it, the libraries that were built of these with them."""
    for name in {crate, *below(crate)}:
        shutil.copytree(CRATES / name, room / "crates" / name, ignore=shutil.ignore_patterns("out"))
        if name != crate and (CRATES / name / "out" / "rlib").is_dir():
            shutil.copytree(CRATES / name / "out" / "rlib", room / "crates" / name / "out" / "rlib", copy_function=link_or_copy)
    lines = [line for line in (ROOT / "crates.txt").read_text().splitlines() if re.match(r"\w+", line) and (room / "crates" / re.match(r"\w+", line)[0]).is_dir()]
    (room / "crates.txt").write_text("\n".join(lines) + "\n")
    return room / "crates" / crate


def checked(folder):
    ran = subprocess.run(["rt", "check", "--jobs", "1"], cwd=folder, stdin=subprocess.DEVNULL, stdout=subprocess.PIPE, stderr=subprocess.STDOUT, text=True)
    return ran.returncode, ran.stdout


def tried(crate, edits, room):
    """Makes the logs of a crate's edits, over one check of the crate as it stands. Answers what is wrong with it, or with an edit by its name."""
    wanted = {edit: sum_of(crate, edit) for edit in edits}
    logs = {edit: LOGS / crate / f"{edit.stem}.log" for edit in edits}
    wanted = {edit: sum for edit, sum in wanted.items() if not logs[edit].is_file() or not logs[edit].read_text().startswith(sum)}
    if not wanted:
        return {}
    folder, wrong = copied(crate, room), {}
    status, said = checked(folder)
    if status:
        return {edit.stem: f"the crate is not proved as it stands: {said.splitlines()[-1:]}" for edit in wanted}
    (LOGS / crate).mkdir(parents=True, exist_ok=True)
    for edit, sum in wanted.items():
        was, why = edited(edit, folder)
        status, said = (1, "") if why else checked(folder)
        if why or status != 1:
            wrong[edit.stem] = why or ("still proved" if status == 0 else f"its check ended with status {status}")
        else:
            logs[edit].write_text(f"{sum}\n{said}")
        for path, text in was.items():
            path.write_text(text)
    return wrong


def main(names):
    edits = {}
    for edit in sorted(CRATES.glob("*/must-fail/*.edit")):
        if not names or edit.parent.parent.name in names:
            edits.setdefault(edit.parent.parent.name, []).append(edit)
    with tempfile.TemporaryDirectory(prefix="must-fail-") as rooms, concurrent.futures.ThreadPoolExecutor(len(os.sched_getaffinity(0))) as threads:
        # those that take longest come first
        order = sorted(edits, key=lambda crate: -len(edits[crate]) * len(below(crate)))
        wrong = dict(zip(order, threads.map(lambda crate: tried(crate, edits[crate], pathlib.Path(rooms, crate)), order)))
    beside = []
    for crate in edits:
        for edit in edits[crate]:
            answers, log = wrong_answers(edit), LOGS / crate / f"{edit.stem}.log"
            if not answers:
                check(False, f"{crate}/{edit.stem}: names no wrong answer")
            places = [place for _, _, place in answers]
            for name, _, place in answers:
                if place is None or places.count(place) > 1:
                    why = "names no place of its own"
                else:
                    why = wrong[crate].get(edit.stem) or refused(log.read_text(), place)
                check(not why, f"{crate}/{edit.stem}, {name}: {why}")
                if not why and loses_a_name(log.read_text(), place):
                    beside.append(f"{crate}/{edit.stem}, {name}")
    print(f"{len(beside)} of these also take a goal's name away, beside the fact that fails: {'; '.join(beside)}")
    return counted()


if __name__ == "__main__":
    sys.exit(main(sys.argv[1:]))
