"""Runs a function of an assembler text down one path, in memory made up for it, and notes its steps at shared places."""

import re
from collections.abc import Callable
from dataclasses import dataclass, field
from pathlib import Path

# Where memory that is had begins, and where a stack ends.
FIRST = 0x10000
STACK = 0x7FFF0000
# Where a call returns to, and where functions are.
END = 0xE0000000
FUNCTIONS = 0xC0000000
# What a call that sleeps is said to answer.
SLEEPS = -1
# A path is no longer than this.
LONGEST = 200_000


class Unknown(Exception):
    """What this interpreter doesn't know, or a path that wasn't meant."""


@dataclass(frozen=True)
class Step:
    """A step at a shared place, or a fence: by the word of its instruction, with what it read and wrote on this path."""

    word: str
    place: str = ""
    read: int | None = None
    written: int | None = None
    line: int = 0


@dataclass(frozen=True)
class Line:
    """An instruction of a text."""

    number: int
    word: str
    operands: tuple[str, ...]


def split(operands: str) -> tuple[str, ...]:
    """The operands, of which one may have commas within brackets."""
    return tuple(one.strip() for one in re.findall(r"(?:\[[^\]]*\]!?|\([^)]*\)|[^,\[(])+", operands) if one.strip())


WIDTHS = {"byte": 1, "short": 2, "hword": 2, "long": 4, "word": 4, "quad": 8, "xword": 8}


def constants(kind: str, words: str) -> bytes:
    """The bytes of a row of constants. A name stands as zero."""
    values = [int(word, 0) if re.match(r"-?\d", word) else 0 for word in map(str.strip, words.split(","))]
    return b"".join((value % (1 << 8 * WIDTHS[kind])).to_bytes(WIDTHS[kind], "little") for value in values)


class Code:
    """The instructions of a text, by their numbers, and where each label is."""

    def __init__(self, path: Path):
        self.lines: list[Line] = []
        self.labels: dict[str, int] = {}
        # The constants behind each label, and which names stand in them.
        self.data: dict[str, bytes] = {}
        self.names: dict[str, list[tuple[int, str]]] = {}
        self.functions: set[str] = set()
        self.known: dict[str, str] = {}
        label, is_code = "", True
        for number, line in enumerate(path.read_text().splitlines(), 1):
            line = re.sub(r"\s+(#|//) .*$", "", line)
            if found := re.match(r"([\w.$]+):", line):
                label = found[1]
                self.labels[label] = len(self.lines)
                self.functions |= {label} if is_code else set()
            elif found := re.match(r'\t\.(?:section\s+)?"?(\.?\w+)', line) if line.startswith(("\t.section", "\t.text")) else None:
                is_code = found[1].lstrip(".") == "text"
            elif found := re.match(r"\t\.(byte|short|hword|long|word|quad|xword)\s+(.+)$", line):
                before = self.data.get(label, b"")
                if re.match(r"[A-Za-z_.][\w.$]*$", found[2]):
                    self.names.setdefault(label, []).append((len(before), found[2]))
                self.data[label] = before + constants(found[1], found[2])
            elif found := re.match(r'\t\.(asciz|ascii)\s+"(.*)"$', line):
                content = found[2].encode().decode("unicode_escape").encode("latin-1")
                self.data[label] = self.data.get(label, b"") + content + (b"\0" if found[1] == "asciz" else b"")
            elif found := re.match(r"\t\.zero\s+(\d+)$", line):
                self.data[label] = self.data.get(label, b"") + bytes(int(found[1]))
            elif line.startswith("\t") and not line.startswith(("\t.", "\t//", "\t#")):
                word, _, operands = re.sub(r"^(lock)\s+", r"\1 ", line.strip()).partition("\t")
                self.lines.append(Line(number, word, split(operands)))

    def name(self, part: str) -> str:
        """The one label that has this part."""
        if part not in self.known:
            found = [label for label in self.labels if re.search(part, label)]
            if len(found) != 1:
                raise Unknown(f"{len(found)} labels are like {part}")
            self.known[part] = found[0]
        return self.known[part]


@dataclass
class Memory:
    """Bytes by their addresses. What was never written is zero: code that copies a whole reads its padding."""

    bytes: dict[int, int] = field(default_factory=dict)
    next: int = FIRST
    symbols: dict[str, int] = field(default_factory=dict)

    def copy(self) -> "Memory":
        return Memory(dict(self.bytes), self.next, dict(self.symbols))

    def take(self, size: int, fill: int | None = None) -> int:
        """The address of so many bytes that nobody has."""
        at, self.next = self.next, self.next + (size + 127) // 128 * 128 + 128
        if fill is not None:
            self.bytes.update({at + one: fill for one in range(size)})
        return at

    def symbol(self, name: str, content: bytes = b"") -> int:
        """The address of what a symbol names: its constants, or a variable that is zero."""
        if name not in self.symbols:
            at = self.symbols[name] = self.take(64 + len(content), 0)
            for one, byte in enumerate(content):
                self.write(at + one, 1, byte)
        return self.symbols[name]

    def read(self, at: int, size: int) -> int:
        return int.from_bytes(bytes(self.bytes.get(at + one, 0) for one in range(size)), "little")

    def write(self, at: int, size: int, value: int) -> None:
        for one, byte in enumerate((value % (1 << 8 * size)).to_bytes(size, "little")):
            self.bytes[at + one] = byte


class Machine:
    """A processor that runs one thread alone. A kind of processor says what each instruction does."""

    PLAIN_STORE = ""

    def __init__(self, code: Code, memory: Memory, places: dict[int, str]):
        self.code = code
        self.memory = memory
        self.places = places
        self.steps: list[Step] = []
        self.registers: dict[str, int] = {}
        self.at = 0
        self.line = Line(0, "", ())
        self.sleeps = False
        # What a load of a place reads, in turn, where another thread changes it meanwhile.
        self.reads: dict[str, list[int]] = {}
        # Each address that an atomic step changes or orders, with its size: so a place is found.
        self.touched: list[tuple[str, int]] = []

    def symbol(self, name: str) -> int:
        """The address of what a symbol names: of a function, one by which it may be called."""
        if name in self.code.functions:
            return FUNCTIONS + self.code.labels[name]
        is_new = name not in self.memory.symbols
        at = self.memory.symbol(name, self.code.data.get(name, b""))
        for offset, named in self.code.names.get(name, []) if is_new else []:
            self.memory.write(at + offset, 8, self.symbol(named))
        return at

    def pointer(self, name: str) -> int:
        """The address of a pointer to what a symbol names."""
        at = self.symbol(f"pointer to {name}")
        self.memory.write(at, 8, self.symbol(name))
        return at

    # Steps at memory

    def load(self, at: int, size: int, word: str = "") -> int:
        value = self.memory.read(at, size)
        if at in self.places:
            if self.reads.get(self.places[at]):
                value = self.reads[self.places[at]].pop(0)
                self.memory.write(at, size, value)
            self.note(word or self.line.word, at, read=value)
        return value

    def store(self, at: int, size: int, value: int, word: str = "") -> None:
        self.memory.write(at, size, value)
        if at in self.places:
            self.note(word or self.line.word, at, written=value % (1 << 8 * size))

    def change(self, at: int, size: int, new: Callable[[int], int]) -> int:
        """Changes memory by one step, and answers what was there."""
        value = self.memory.read(at, size)
        self.memory.write(at, size, new(value))
        if at in self.places:
            self.note(self.line.word, at, value, self.memory.read(at, size))
        return value

    def note(self, word: str, at: int, read: int | None = None, written: int | None = None) -> None:
        self.steps.append(Step(word, self.places[at], read, written, self.line.number))

    def fence(self, word: str) -> None:
        self.steps.append(Step(word, line=self.line.number))

    def fill(self, at: int, values: list[int]) -> None:
        """Writes bytes by plain stores, such as another library's or a vector's."""
        self.memory.bytes |= {at + one: byte for one, byte in enumerate(values)}
        for place in self.places:
            if at <= place < at + len(values):
                self.note(self.PLAIN_STORE, place, written=self.memory.read(place, 8))

    # Calls

    def called(self, at: int) -> int | str:
        """The instruction that an address is for, or the name of a function of another library."""
        if FUNCTIONS <= at < END:
            return at - FUNCTIONS
        return next((name for name, symbol in self.memory.symbols.items() if symbol == at), f"{at:#x}")

    def target(self, name: str) -> int | str:
        return self.code.labels.get(name, name)

    def external(self, name: str, arguments: list[int]) -> list[int]:
        """What a function of another library does, if a path comes to it: its answers."""
        first, second, third, *_ = arguments
        if re.fullmatch(r"kdr_\d+_\d+_\d+_alloc", name):
            return [1, self.memory.take(first)]
        if re.search(r"(malloc|___rust_alloc|___rust_alloc_zeroed)$", name):
            return [self.memory.take(first)]
        if re.search(r"(kdr_\d+_\d+_\d+_dealloc|free|___rust_dealloc|___rust_no_alloc_shim_is_unstable(_v2)?)$", name):
            return []
        if re.search(r"7Condvar\d*wait", name):
            self.sleeps = True
            return []
        if re.search(r"7Condvar10notify_(one|all)$", name):
            return []
        if re.search(r"7Instant3now$", name):
            return [0, 0]
        if name in ("memcpy", "memmove"):
            self.fill(first, [self.memory.bytes.get(second + one, 0) for one in range(third)])
            return [first]
        if name == "memset":
            self.fill(first, [second & 0xFF] * third)
            return [first]
        raise Unknown(f"a call of {name}")

    def run(self, name: str, *arguments: int) -> int:
        """Calls a function, and answers what it answers. If it sleeps, there is no answer."""
        self.enter(self.code.labels[name], arguments)
        for _ in range(LONGEST):
            if self.at == END or self.sleeps:
                return self.answer() if self.at == END else SLEEPS
            self.line = self.code.lines[self.at]
            self.at += 1
            try:
                self.step(self.line.word, self.line.operands)
            except Unknown as error:
                raise Unknown(f"{name}, line {self.line.number}: {self.line.word} {', '.join(self.line.operands)}: {error}") from None
        raise Unknown(f"{name}: the path has no end")

    def enter(self, at: int, arguments: tuple[int, ...]) -> None:
        raise NotImplementedError

    def answer(self) -> int:
        raise NotImplementedError

    def step(self, word: str, operands: tuple[str, ...]) -> None:
        raise NotImplementedError
