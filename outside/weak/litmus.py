"""Writes a litmus test of some threads' steps, makes steps weaker, and asks herd7 what may happen."""

import os
import re
import subprocess
from collections.abc import Callable
from dataclasses import dataclass, replace
from fnmatch import fnmatch
from pathlib import Path

from machine import Step, Unknown

# How long herd7 may take for one test, also where much else runs.
SECONDS = 1800

Threads = list[list[Step]]


@dataclass(frozen=True)
class Row:
    """What a thread of a litmus test has: what it begins with, its instructions, and what it has to find."""

    begin: dict[str, str]
    lines: list[str]
    found: dict[str, str]


def signed(value: int) -> str:
    """A number as herd7 writes it, in 64 bits with a sign."""
    return str(value - (1 << 64) if value >> 63 else value)


class Registers:
    """The registers of a thread, each of which is given once."""

    def __init__(self, names: list[str]):
        self.free = names
        self.begin: dict[str, str] = {}
        self.known: dict[str, str] = {}

    def new(self) -> str:
        if not self.free:
            raise Unknown("a thread has more values than registers")
        return self.free.pop(0)

    def of(self, value: str) -> str:
        """The register that begins with a value: a place's address or a number."""
        if value not in self.known:
            self.known[value] = self.new()
            self.begin[self.known[value]] = value
        return self.known[value]


# AArch64


def write_aarch64(steps: list[Step]) -> Row:
    registers, lines, found = Registers([f"X{one}" for one in range(31)]), [], {}
    for step in steps:
        word = step.word.upper()
        if word.startswith("DMB"):
            lines.append(word)
            continue
        memory = f"[{registers.of(step.place)}]"
        if word in ("LDR", "LDAR", "LDAPR", "LDAXR", "LDXR"):
            target = registers.new()
            lines.append(f"{word} {target},{memory}")
            found[target] = signed(step.read)
        elif word in ("STR", "STLR"):
            lines.append(f"{word} {registers.of(signed(step.written))},{memory}")
        elif word in ("STLXR", "STXR"):
            status = registers.new()
            lines.append(f"{word} W{status[1:]},{registers.of(signed(step.written))},{memory}")
            found[status] = "0"
        elif word.startswith("CAS"):
            target = registers.new()  # it begins with what the step expects
            registers.begin[target] = signed(step.read)
            lines.append(f"{word} {target},{registers.of(signed(step.written))},{memory}")
            found[target] = signed(step.read)
        elif word.startswith(("SWP", "LD")):
            # Each atomic step of one instruction that is no compare and swap is an exchange by what it leaves.
            target = registers.new()
            order = re.fullmatch(r"(?:SWP|LDADD|LDSET|LDCLR|LDEOR)(AL|A|L|)", word)[1]
            lines.append(f"SWP{order} {registers.of(signed(step.written))},{target},{memory}")
            found[target] = signed(step.read)
        else:
            raise Unknown(f"a step {word}")
    return Row(registers.begin, lines, found)


WITHOUT_RELEASE = {"stlr": "str", "stlxr": "stxr"}
WITHOUT_ACQUIRE = {"ldar": "ldr", "ldapr": "ldr", "ldaxr": "ldxr"}
WITHOUT_PAIR = {"ldaxr": "ldar", "ldxr": "ldr", "stlxr": "stlr", "stxr": "str"}


def weaken_aarch64(step: Step, what: str) -> list[Step]:
    """The step without its release, its acquire, its order, or its being one; or no fence."""
    word = step.word
    one = re.fullmatch(r"(cas|swp|ldadd|ldset|ldclr|ldeor)(al|a|l|)", word)
    if what == "fence":
        return [] if word.startswith("dmb") else [step]
    if what == "atomic":
        if one:
            return [replace(step, word="ldar", written=None), replace(step, word="stlr", read=None)]
        return [replace(step, word=WITHOUT_PAIR.get(word, word))]
    if what in ("release", "order"):
        word = WITHOUT_RELEASE.get(word, word)
        if one:
            word = one[1] + one[2].replace("l", "")
    if what in ("acquire", "order"):
        word = WITHOUT_ACQUIRE.get(word, word)
        if one:
            word = one[1] + (one[2].replace("a", "") if what == "acquire" else "")
    if what == "sequential" and word == "ldar":
        word = "ldapr"
    return [replace(step, word=word)]


# x86-64


def write_x86(steps: list[Step]) -> Row:
    registers, lines, found = Registers([*("rax rbx rcx rdx rsi rdi".split()), *(f"r{one}" for one in range(8, 16))]), [], {}
    for step in steps:
        if step.word == "mfence":
            lines.append("mfence")
        elif step.word == "mov" and step.written is None:
            target = registers.new()
            lines.append(f"movq ({step.place}),%{target}")
            found[target] = signed(step.read)
        elif step.word == "mov":
            lines.append(f"movq ${signed(step.written)},({step.place})")
        elif step.word.startswith(("lock", "xchg")):
            # Each locked step is an exchange by what it leaves: herd7 knows few others.
            target = registers.new()
            registers.begin[target] = signed(step.written)
            lines.append(f"xchgq %{target},({step.place})")
            found[target] = signed(step.read)
        else:
            raise Unknown(f"a step {step.word}")
    return Row(registers.begin, lines, found)


def weaken_x86(step: Step, what: str) -> list[Step]:
    if what == "fence":
        return [] if step.word == "mfence" else [step]
    if what in ("order", "atomic") and step.word.startswith(("lock", "xchg")):
        return [replace(step, word="mov", written=None), replace(step, word="mov", read=None)]
    return [step]


# Both


@dataclass(frozen=True)
class Model:
    """How a processor's tests are written, and the model that judges them."""

    head: str
    cat: str
    write: Callable[[list[Step]], Row]
    weaken: Callable[[Step, str], list[Step]]


MODELS = {
    "aarch64": Model("AArch64", "aarch64.cat", write_aarch64, weaken_aarch64),
    "x86_64": Model("X86_64", str(Path(__file__).resolve().parent / "x86_64.cat"), write_x86, weaken_x86),
}


def weaker(model: Model, threads: Threads, thread: int, place: str, what: str) -> Threads:
    """The threads, of which one is weaker in its steps at a place; of a fence, in all its fences."""
    changed = [one for step in threads[thread] for one in (model.weaken(step, what) if step.place == "" or fnmatch(step.place, place) else [step])]
    return [*threads[:thread], changed, *threads[thread + 1 :]]


def kind(value: str) -> str:
    return "uint64_t " if value.lstrip("-").isdigit() else ""


def text(model: Model, name: str, places: dict[str, int], threads: Threads) -> str:
    """The litmus test that asks whether all threads may find what their steps found."""
    rows = [model.write(steps) for steps in threads]
    begin = [f"uint64_t {place}={signed(value)};" for place, value in places.items()]
    # What is found is compared whole only where its register is said to have 64 bits.
    begin += [f"uint64_t {at}:{register};" for at, row in enumerate(rows) for register in row.found if register not in row.begin]
    begin += [f"{kind(value)}{at}:{register}={value};" for at, row in enumerate(rows) for register, value in row.begin.items()]
    height = max(len(row.lines) for row in rows)
    table = [[f"P{at}" for at in range(len(rows))]]
    table += [[row.lines[at] if at < len(row.lines) else "" for row in rows] for at in range(height)]
    found = [f"{at}:{register}={value}" for at, row in enumerate(rows) for register, value in row.found.items()]
    program = "\n".join(" " + " | ".join(line) + " ;" for line in table)
    outcome = " /\\ ".join(found)
    return f"{model.head} {name}\n{{ {' '.join(begin)} }}\n{program}\nexists ({outcome})\n"


def ask(cat: str, path: str) -> tuple[str, str]:
    """Whether herd7 finds the outcome (Never, Sometimes or Always), and what it said."""
    words = [os.environ.get("HERD", "herd7"), "-model", cat, "-speedcheck", "true", path]
    try:
        ran = subprocess.run(words, capture_output=True, text=True, timeout=SECONDS)
    except subprocess.TimeoutExpired:
        return f"no answer in {SECONDS} seconds", ""
    found = re.search(r"^Observation \S+ (\w+)", ran.stdout, re.MULTILINE)
    return (found[1] if found else "no answer"), ran.stdout + ran.stderr
