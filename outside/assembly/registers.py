"""Takes another register in place of x18 in the text for AArch64: some systems keep x18.

    python3 -B registers.py FILE

prints the text in FILE so. A function that uses x18 takes the first register instead that it
doesn't use, and that a call keeps for its caller. It stores that register beside the one that it
stores first, where its frame has room, and loads both together.
"""

import re
import sys
from pathlib import Path

from object_file import AARCH64, Unknown
from unwind import with_unwinding

START, END = "\t.cfi_startproc", "\t.cfi_endproc"
SPARED = re.compile(r"\b([xw])18\b")
# How such a function stores one register first, in room for two, and how it loads that at its ends.
STORE = re.compile(r"\tstr\t(x\d+), (\[sp, #-\d+\]!)")
LOAD = re.compile(r"\tldr\t(x\d+), (\[sp\], #\d+)")


def free_register(lines: list[str]) -> str:
    """The number of the first register that a call keeps, and that these lines don't name."""
    named = {number for line in lines for number in re.findall(r"\b[xw](\d+)\b", line)}
    free = [str(number) for number in range(19, 29) if str(number) not in named]
    if not free:
        raise Unknown("a function that uses x18 and each register that it may take instead")
    return free[0]


def refuse_other_frames(lines: list[str]) -> None:
    """Only the register that is stored first may lie in the lowest 16 bytes of the frame."""
    stores = [at for at, line in enumerate(lines) if STORE.fullmatch(line)]
    moves = [line for line in lines if re.search(r"\bw?sp\b", line) and not LOAD.fullmatch(line)]
    places = [re.search(r"\[sp, #(\d+)\]$", line) for line in moves[1:]]
    if stores != [0] or not all(place and int(place[1]) >= 16 for place in places):
        raise Unknown(f"a function that uses x18, and has no room beside its first store: {moves}")


def spare_in(told: list[str]) -> list[str]:
    """A function, from its label to its end, with what unwinders read."""
    lines = [line for line in told if not line.startswith("\t.cfi_")]
    if not any(SPARED.search(line) for line in lines):
        return told
    if with_unwinding(AARCH64, lines) != told:
        raise Unknown("a function that tells unwinders something else")
    refuse_other_frames(lines)
    number = free_register(lines)
    lines = [SPARED.sub(rf"\g<1>{number}", line) for line in lines]
    lines = [STORE.sub(rf"\tstp\t\1, x{number}, \2", line) for line in lines]
    return with_unwinding(AARCH64, [LOAD.sub(rf"\tldp\t\1, x{number}, \2", line) for line in lines])


def spare(lines: list[str]) -> list[str]:
    """The text, in which no function uses x18."""
    found: list[str] = []
    start = 0
    for at, line in enumerate(lines):
        if line == START:
            found += lines[start:at]
            start = at
        elif line == END:
            found += spare_in(lines[start : at + 1])
            start = at + 1
    return found + lines[start:]


if __name__ == "__main__":
    print("\n".join(spare(Path(sys.argv[1]).read_text().splitlines())))
