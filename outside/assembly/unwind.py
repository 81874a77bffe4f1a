"""Adds to the text of a function what unwinders read: where the caller's frame begins, and where the caller's registers lie."""

import re
from dataclasses import dataclass, replace

from object_file import AARCH64, X86_64, Unknown

# What a call keeps for its caller, and how far above the stack pointer the caller's frame begins at a function's first instruction.
KEPT = {
    X86_64: {"%rbx", "%rbp", "%r12", "%r13", "%r14", "%r15"},
    AARCH64: {f"x{number}" for number in range(19, 31)},
}
FIRST = {X86_64: 8, AARCH64: 0}
LEAVES = re.compile(r"(retq?|ud2|jmp|b|brk)$")


@dataclass(frozen=True)
class Frame:
    """How far above the stack pointer the caller's frame begins, and where its registers lie, counted from there."""

    size: int
    saved: frozenset[tuple[str, int]] = frozenset()

    def save(self, register: str, at: int, kept: set[str]) -> "Frame":
        """A register is stored so far above the stack pointer. Only the first time is it the caller's."""
        if register not in kept or register in dict(self.saved):
            return self
        return replace(self, saved=self.saved | {(register, at - self.size)})

    def restore(self, register: str, at: int) -> "Frame":
        """A register is loaded from so far above the stack pointer."""
        return replace(self, saved=self.saved - {(register, at - self.size)})

    def move(self, bytes_more: int) -> "Frame":
        """The stack pointer moves down by so many bytes."""
        return replace(self, size=self.size + bytes_more)


def words_of(line: str) -> tuple[str, list[str]]:
    """The mnemonic and the operands of a line. An instruction that stands as bytes is said behind them."""
    code, _, said = re.sub(r"\t\.(byte|inst) [^#/]*(#|//) ", "\t", line).strip().partition("\t")
    if not said:
        code, _, said = code.partition(" ")
    said = re.sub(r"\s+(#|//) .*$", "", said)
    return code, [one.strip() for one in re.findall(r"(?:\[[^\]]*\]!?|\([^)]*\)|[^,\[(])+", said) if one.strip()]


def after_x86(frame: Frame, word: str, words: list[str]) -> Frame:
    """The frame after an instruction for x86-64."""
    if word == "pushq":
        frame = frame.move(8)
        return frame.save(words[0], 0, KEPT[X86_64])
    if word == "popq":
        return frame.restore(words[0], 0).move(-8)
    if words[-1:] != ["%rsp"] or word.startswith(("cmp", "test")):
        return frame
    if word in ("subq", "addq") and words[0].startswith("$"):
        number = int(words[0][1:], 0)
        return frame.move(number if word == "subq" else -number)
    raise Unknown(f"the stack pointer after {word} {words}")


def after_aarch64(frame: Frame, word: str, words: list[str]) -> Frame:
    """The frame after an instruction for AArch64."""
    if words[:2] == ["sp", "sp"] and word in ("sub", "add"):
        number = int(words[2].lstrip("#"), 0)
        return frame.move(number if word == "sub" else -number)
    memory = next((one for one in words if re.match(r"\[sp\b", one)), None)
    if memory is None or word not in ("str", "stp", "ldr", "ldp"):
        if words[:1] == ["sp"] or memory and (memory.endswith("!") or words[-1] != memory):
            raise Unknown(f"the stack pointer after {word} {words}")
        return frame
    at = int((re.search(r"#(-?\w+)\]", memory) or ["", "0"])[1], 0)
    if memory.endswith("!"):
        frame, at = frame.move(-at), 0
    for number, register in enumerate(words[: words.index(memory)]):
        if word.startswith("st"):
            frame = frame.save(register, at + 8 * number, KEPT[AARCH64])
        else:
            frame = frame.restore(register, at + 8 * number)
    return frame if words[-1] == memory else frame.move(-int(words[-1].lstrip("#"), 0))


AFTER = {X86_64: after_x86, AARCH64: after_aarch64}


def frames(machine: int, lines: list[str]) -> list[Frame | None]:
    """The frame before each line, whichever way led there. None where no way leads."""
    labels = {line.rstrip(":"): at for at, line in enumerate(lines) if line.endswith(":")}
    known: list[Frame | None] = [None] * len(lines)
    todo = [(0, Frame(FIRST[machine]))]
    while todo:
        at, frame = todo.pop()
        if at == len(lines):
            raise Unknown("a function that goes on past its end")
        if known[at] is not None:
            if known[at] != frame:
                raise Unknown(f"two frames at {lines[at]}")
            continue
        known[at] = frame
        word, words = ("", []) if lines[at].endswith(":") else words_of(lines[at])
        frame = AFTER[machine](frame, word, words)
        if words and words[-1] in labels:
            todo.append((labels[words[-1]], frame))
        if word.startswith("ret") and frame != Frame(FIRST[machine]):
            raise Unknown(f"a return with {frame}")
        if not LEAVES.match(word):
            todo.append((at + 1, frame))
    return known


def difference(before: Frame, frame: Frame) -> list[str]:
    """What an unwinder is told where the frame differs from that of the line before."""
    lines = [] if before.size == frame.size else [f"\t.cfi_def_cfa_offset {frame.size}"]
    lines += [f"\t.cfi_offset {register}, {at}" for register, at in sorted(frame.saved - before.saved, key=lambda one: -one[1])]
    return lines + [f"\t.cfi_restore {register}" for register, _ in sorted(before.saved - frame.saved, key=lambda one: one[1])]


def with_unwinding(machine: int, lines: list[str]) -> list[str]:
    """The lines of a function, from behind its label to its end, with what unwinders read."""
    found = ["\t.cfi_startproc"]
    before = Frame(FIRST[machine])
    for line, frame in zip(lines, frames(machine, lines)):
        if frame is not None:
            found += difference(before, frame)
            before = frame
        found.append(line)
    return [*found, "\t.cfi_endproc"]
