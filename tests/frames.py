"""Adds up the frames in the archive for C, as objdump shows its code. From each exported call, the deepest chain of calls has to stay
within IOLWARCH_STACK; a frame's size does not hang on the input, so no input goes deeper. What the C library's memcpy and memset take is
not counted. The last line is 'N passed, M failed'."""
import functools
import re
import subprocess
import sys

from repository import ROOT, check, counted

ARCHIVE = ROOT / "crates" / "recorder" / "out" / "librecorder.a"
LIBRARY = {"memcpy", "memset"}
# A frame of many pages: they are touched one by one, down to r11, in steps of at most a page.
PAGES = re.compile(
    r"\tmov +%rsp,%r11\n.*\tsub +(\$0x\w+),%r11\n.*\tsub +\$0x\w+,%rsp\n.*\tmovq +\$0x0,\(%rsp\)\n.*\tcmp +%r11,%rsp\n.*\tjne "
)
frames, calls = {}, {}


def taken(line):
    """The bytes that an instruction takes from the stack."""
    if "\tpush " in line:
        return 8
    if found := re.search(r"\t(add|sub) +\$0x([0-9a-f]+),%rsp", line):
        amount = int(found[2], 16)
        amount -= (amount >> 63) << 64
        return max(0, amount if found[1] == "sub" else -amount)
    # a comparison with it would be a frame that is taken in a loop of another form
    if re.search(r"\t\w+ +\S*,%rsp$|\tcall +\*", line):
        check(False, f"cannot tell what this takes or calls: {line.strip()}")
    return 0


def read(code):
    """Each function's frame, return address included, and the functions that it calls."""
    for line in PAGES.sub(r"\tsub \1,%rsp ", code).splitlines():
        if found := re.match(r"[0-9a-f]+ <(.+)>:$", line):
            name = found[1]
            frames[name], calls[name] = 8, set()
        elif found := re.search(r"R_X86_64_PLT32\s+(?:\.text\.)?(\S+)-0x4$", line):
            calls[name].add(found[1])
        elif frames:
            frames[name] += taken(line)


@functools.cache
def deepest(name):
    below = [deepest(other) for other in calls[name] - LIBRARY]
    size, chain = max(below, default=(0, ()))
    return frames[name] + size, (name, *chain)


def main():
    read(subprocess.run(["objdump", "-dr", "--no-show-raw-insn", ARCHIVE], capture_output=True, text=True, check=True).stdout)
    limit = int(re.search(r"#define IOLWARCH_STACK (\d+)", (ROOT / "include" / "iolwarch.h").read_text())[1])
    for name in sorted(name for name in frames if name.startswith("iolwarch_")):
        size, chain = deepest(name)
        print(f"{size:8} bytes  " + " > ".join(f"{one} {frames[one]}" for one in chain))
        check(size <= limit, f"{name}: more than IOLWARCH_STACK, {limit}")
    return counted()


if __name__ == "__main__":
    sys.exit(main())
