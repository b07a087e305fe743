"""Times settle-month and the second program on the same month files: best of several runs, one after the other.
Prints the ratios, and where settle-month's time goes, from files on which it does a part of the work."""
import os
import subprocess
import sys
import time

PROGRAM, SECOND, FOLDER = sys.argv[1:4]
RUNS = 25
MILLION = 1_000_000


def shared(total, weights):
    """01, 'Sharing'."""
    whole, run, last, parts = sum(weights), 0, 0, []
    for weight in weights:
        run += weight
        now = total * run // whole
        parts.append(now - last)
        last = now
    return parts


def generated(seed):
    """A month of the second program, of 512 plants and 744 hours. In the months of some seeds one plant has all guarantees."""
    text = subprocess.run([SECOND, "gen", str(seed), "month-full", "--stage", "0"], check=True, capture_output=True).stdout.decode()
    return [line.split(",") for line in text.splitlines()]


def in_deficit(lines):
    """The same month with a quarter of the generation, and 1,000,000 kWh a plant in hours without any; the guarantees stay."""
    metered = [[int(word) // 4 for word in line[2:]] for line in lines if line[0] == "G"]
    metered = [hour if sum(hour) else [MILLION] * len(hour) for hour in metered]
    less = [line for line in lines if line[0] in ("MRE", "P")]
    less += [["H", str(k + 1), str(sum(hour))] for k, hour in enumerate(metered)]
    less += [["G", str(k + 1)] + [str(word) for word in hour] for k, hour in enumerate(metered)]
    return less


def deficits(lines):
    """The hours in which the pool generates less than its guarantees (01, 'One hour', steps 1 to 3)."""
    profile = [int(line[2]) for line in lines if line[0] == "H"]
    guarantees = [0] * len(profile)
    for line in lines:
        if line[0] == "P":
            q, loss, availability = (int(word) for word in line[3:6])
            for k, part in enumerate(shared(q, profile)):
                guarantees[k] += part * loss // MILLION * availability // MILLION
    return sum(1 for kwh, a in zip(profile, guarantees) if kwh < a)


def written(name, lines):
    path = os.path.join(FOLDER, name)
    with open(path, "w") as file:
        file.write("".join(",".join(line) + "\n" for line in lines))
    return path


def run(words, path):
    """Seconds of processor and of the clock that one process takes from a file to nowhere."""
    actions = [(os.POSIX_SPAWN_OPEN, 0, path, os.O_RDONLY, 0), (os.POSIX_SPAWN_OPEN, 1, "/dev/null", os.O_WRONLY, 0)]
    started = time.perf_counter()
    child = os.posix_spawn(words[0], words, os.environ, file_actions=actions)
    _, status, used = os.wait4(child, 0)
    assert status == 0, f"{words[0]}: status {status}"
    return used.ru_utime + used.ru_stime, time.perf_counter() - started


def best(commands, path):
    """For each command the least of its times, processor and clock apart."""
    times = [[] for _ in commands]
    for _ in range(RUNS):
        for kept, words in zip(times, commands):
            kept.append(run(words, path))
    return [(min(used for used, _ in kept) * 1e3, min(clock for _, clock in kept) * 1e3) for kept in times]


def compared(name, path, hours):
    ours, theirs = (subprocess.run(words, stdin=open(path), capture_output=True).stdout for words in ([PROGRAM], STAGED))
    assert ours == theirs and ours.startswith(b"A,"), f"{name}: the programs differ"
    (used, clock), (their_used, their_clock) = best([[PROGRAM], STAGED], path)
    print(f"{name}: {hours} of 744 hours in deficit, {os.path.getsize(path)} bytes, best of {RUNS} runs")
    print(f"    processor  settle-month {used:7.2f} ms   second program {their_used:7.2f} ms   ratio {their_used / used:.1f}")
    print(f"    clock      settle-month {clock:7.2f} ms   second program {their_clock:7.2f} ms   ratio {their_clock / clock:.1f}")
    return used


def parts(full, whole):
    """Files with a part of the work: nothing; all bytes, but the first line refused; all plants and one hour."""
    foreign = [["x" + full[0][0]] + full[0][1:]] + full[1:]
    hour = [["MRE", "1", "1"] + full[0][3:]] + [line for line in full if line[0] == "P"]
    hour += [line for line in full if line[0] in "HG" and line[1] == "1"]
    used = [best([[PROGRAM]], written(name, lines))[0][0] for name, lines in (("none.mre", []), ("foreign.mre", foreign), ("hour.mre", hour))]
    print("settle-month on the full month, processor:")
    print(f"    {used[0]:7.2f} ms  an empty file: the process starts and ends")
    print(f"    {used[1]:7.2f} ms  the first line refused: every byte read, no line")
    print(f"    {used[2]:7.2f} ms  all plants and one hour: 512 rows read, one hour, the statement")
    print(f"    {whole:7.2f} ms  the whole month")


STAGED = [SECOND, "month", "--stage", "0"]
FULL = generated(1)
ALONE = generated(5)
DEFICIT = in_deficit(FULL)
assert deficits(DEFICIT) == 744
assert sum(1 for line in ALONE if line[0] == "P" and line[3] != "0") == 1
WHOLE = compared("full month", written("full.mre", FULL), deficits(FULL))
compared("month in deficit in every hour", written("deficit.mre", DEFICIT), deficits(DEFICIT))
# For each plant with a guarantee the second program sums the profile anew in each hour; here there is one such plant.
compared("full month, one plant has all guarantees", written("alone.mre", ALONE), deficits(ALONE))
parts(FULL, WHOLE)
