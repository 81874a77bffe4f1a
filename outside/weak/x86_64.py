"""What the instructions of x86-64 do that the texts have, for machine.py."""

import re

from machine import END, STACK, Machine, Unknown

MASK = (1 << 64) - 1
SIZES = {"b": 1, "w": 2, "l": 4, "q": 8}
OLD = ("a", "b", "c", "d")
POINTERS = ("si", "di", "bp", "sp")
ARGUMENTS = ("rdi", "rsi", "rdx", "rcx", "r8", "r9")


def registers() -> dict[str, tuple[str, int]]:
    """Each register's name, with that of the one of 64 bits that it is part of, and its size."""
    names = {}
    for name in OLD:
        names |= {f"r{name}x": (f"r{name}x", 8), f"e{name}x": (f"r{name}x", 4), f"{name}x": (f"r{name}x", 2), f"{name}l": (f"r{name}x", 1)}
    for name in POINTERS:
        names |= {f"r{name}": (f"r{name}", 8), f"e{name}": (f"r{name}", 4), name: (f"r{name}", 2), f"{name}l": (f"r{name}", 1)}
    for name in range(8, 16):
        names |= {f"r{name}": (f"r{name}", 8), f"r{name}d": (f"r{name}", 4), f"r{name}w": (f"r{name}", 2), f"r{name}b": (f"r{name}", 1)}
    return names


NAMES = registers()


def number_of(word: str) -> int:
    return int(word, 0)


class X86(Machine):
    """The processor."""

    PLAIN_STORE = "mov"
    flags = {"z": False, "s": False, "c": False, "o": False}

    def enter(self, at: int, arguments: tuple[int, ...]) -> None:
        self.registers |= dict(zip(ARGUMENTS, arguments))
        self.registers |= {name: 0 for name in ("rbx", "rbp", "r12", "r13", "r14", "r15")}
        self.registers["rsp"] = STACK
        self.push(END)
        self.at = at

    def answer(self) -> int:
        return self.registers["rax"]

    def push(self, value: int) -> None:
        self.registers["rsp"] -= 8
        self.memory.write(self.registers["rsp"], 8, value)

    def pop(self) -> int:
        self.registers["rsp"] += 8
        return self.memory.read(self.registers["rsp"] - 8, 8)

    # Operands

    def register(self, word: str) -> tuple[str, int]:
        if word[1:] not in NAMES:
            raise Unknown(f"a register {word}")
        return NAMES[word[1:]]

    def get(self, word: str, size: int) -> int:
        """What an operand names: a number, a register or memory."""
        if word.startswith("$"):
            return self.offset(word[1:]) % (1 << 8 * size)
        if word.startswith("%") and not word.startswith("%fs:"):
            name, _ = self.register(word)
            if name not in self.registers:
                raise Unknown(f"{word} has nothing")
            return self.registers[name] % (1 << 8 * size)
        return self.load(self.address(word), size, "mov")

    def put(self, word: str, size: int, value: int) -> None:
        value %= 1 << 8 * size
        if word.startswith("%") and not word.startswith("%fs:"):
            name, _ = self.register(word)
            before = self.registers.get(name, 0) if size < 4 else 0
            self.registers[name] = before >> 8 * size << 8 * size | value
        else:
            self.store(self.address(word), size, value, "mov")

    def address(self, word: str) -> int:
        if found := re.fullmatch(r"%fs:(.+)@TPOFF", word):
            return self.symbol(found[1])
        found = re.fullmatch(r"(.*?)\((.*)\)", word)
        if not found:
            raise Unknown(f"an address {word}")
        parts = [one.strip() for one in found[2].split(",")]
        if parts == ["%rip"]:
            name = found[1].removesuffix("@GOTPCREL")
            return self.symbol(name) if name == found[1] else self.pointer(name)
        at = self.offset(found[1]) if found[1] else 0
        if parts[0]:
            at += self.get(parts[0], 8)
        if parts[1:]:
            at += self.get(parts[1], 8) * (number_of(parts[2]) if parts[2:] else 1)
        return at & MASK

    def offset(self, word: str) -> int:
        """A number, or the address of what a symbol names."""
        return number_of(word) if re.match(r"-?\d", word) else self.symbol(word)

    def holds(self, condition: str) -> bool:
        z, s, c, o = (self.flags[name] for name in "zsco")
        known = {"e": z, "b": c, "be": c or z, "s": s, "o": o, "l": s != o, "le": z or s != o}
        known |= {"ae": not c, "ne": not z, "a": not (c or z), "ns": not s, "no": not o, "ge": s == o, "g": not z and s == o}
        if condition not in known:
            raise Unknown(f"a condition {condition}")
        return known[condition]

    def marked(self, value: int, size: int, carry: bool = False, overflow: bool = False) -> int:
        """Sets the flags by a result."""
        value %= 1 << 8 * size
        self.flags = {"z": value == 0, "s": bool(value >> (8 * size - 1)), "c": carry, "o": overflow}
        return value

    def sum_of(self, kind: str, one: int, other: int, size: int) -> int:
        """A sum or a difference, which sets the flags."""
        carried = self.flags["c"] if kind in ("adc", "sbb") else 0
        less = kind in ("sub", "sbb", "cmp")
        full = one - other - carried if less else one + other + carried
        signs = [value >> (8 * size - 1) & 1 for value in (one, other, full % (1 << 8 * size))]
        overflow = signs[0] != signs[2] and (signs[0] != signs[1]) == less
        return self.marked(full, size, full < 0 or full >> 8 * size > 0, overflow)

    # Instructions

    def step(self, word: str, operands: tuple[str, ...]) -> None:
        if word.startswith(("rep ", "rep\t")):
            raise Unknown("a repeated instruction")
        for kind in (self.jump, self.atomic, self.vector, self.move, self.arithmetic):
            if kind(word, operands):
                return
        raise Unknown("an instruction that isn't known")

    def jump(self, word: str, operands: tuple[str, ...]) -> bool:
        if word in ("retq", "ret"):
            self.at = self.pop()
        elif word in ("jmp", "jmpq", "callq", "call"):
            self.go(word[0] == "c", operands[0])
        elif word[0] == "j":
            if self.holds(word[1:]):
                self.go(False, operands[0])
        else:
            return False
        return True

    def go(self, calls: bool, target: str) -> None:
        target = re.sub(r"^\*(.*)@GOTPCREL\(%rip\)$", r"\1", target)
        to = self.called(self.get(target[1:], 8)) if target.startswith("*") else self.target(target)
        if isinstance(to, int):
            if calls:
                self.push(self.at)
            self.at = to
            return
        answers = self.external(to, [self.registers.get(name, 0) for name in ARGUMENTS])
        self.registers |= dict(zip(("rax", "rdx"), answers))
        if not calls:
            self.at = self.pop()

    def atomic(self, word: str, operands: tuple[str, ...]) -> bool:
        if word == "mfence":
            self.fence(word)
            return True
        word = word.removeprefix("lock ")
        found = re.fullmatch(r"(xchg|xadd|cmpxchg|inc|dec|add|sub|and|or|xor)([bwlq])", word)
        if not found or word == self.line.word and found[1] != "xchg":
            return False
        kind, size = found[1], SIZES[found[2]]
        source, memory = operands[0], operands[-1]
        if kind == "xchg" and source.endswith(")"):
            source, memory = memory, source
        if memory.startswith("%"):
            raise Unknown("an exchange of registers")
        given = 1 if kind in ("inc", "dec") else self.get(source, size)
        at = self.address(memory)
        if re.fullmatch(r"-?\d*\(%rsp\)", memory):
            self.fence("mfence")  # a locked change of the stack is one
            return True
        self.touched.append((kind, at))
        self.change_by(kind, source, given, at, size)
        return True

    def change_by(self, kind: str, source: str, given: int, at: int, size: int) -> None:
        if kind == "cmpxchg":
            expected = self.get("%rax", size)
            if self.change(at, size, lambda old: given if old == expected else old) != expected:
                raise Unknown("a compare and exchange that fails")
            self.sum_of("cmp", expected, expected, size)
            return
        new = {"xchg": lambda _: given, "and": lambda old: old & given, "or": lambda old: old | given, "xor": lambda old: old ^ given}
        new |= {kind: lambda old: old + given for kind in ("xadd", "inc", "add")}
        new |= {kind: lambda old: old - given for kind in ("dec", "sub")}
        old = self.change(at, size, new[kind])
        if kind != "xchg":
            self.marked(new[kind](old), size)
        if kind in ("xchg", "xadd"):
            self.put(source, size, old)

    def vector(self, word: str, operands: tuple[str, ...]) -> bool:
        if word in ("xorps", "pxor") and operands[0] == operands[1]:
            self.registers[operands[1]] = 0
        elif word in ("movups", "movaps", "movdqu", "movdqa"):
            source, target = operands
            value = self.registers[source] if source.startswith("%xmm") else self.memory.read(self.address(source), 16)
            if target.startswith("%xmm"):
                self.registers[target] = value
            else:
                self.fill(self.address(target), list(value.to_bytes(16, "little")))
        else:
            return False
        return True

    def move(self, word: str, operands: tuple[str, ...]) -> bool:
        if word == "movabsq":
            self.put(operands[1], 8, self.get(operands[0], 8))
        elif found := re.fullmatch(r"movz([bw])([wlq])", word):
            self.put(operands[1], SIZES[found[2]], self.get(operands[0], SIZES[found[1]]))
        elif found := re.fullmatch(r"mov([bwlq])", word):
            self.put(operands[1], SIZES[found[1]], self.get(operands[0], SIZES[found[1]]))
        elif found := re.fullmatch(r"lea([lq])", word):
            self.put(operands[1], SIZES[found[1]], self.address(operands[0]))
        elif word == "pushq":
            self.push(self.registers.get(operands[0].lstrip("%"), 0))  # one that has nothing makes room
        elif word == "popq":
            self.put(operands[0], 8, self.pop())
        elif found := re.fullmatch(r"cmov(\w+?)([lq])", word):
            size = SIZES[found[2]]
            value = self.get(operands[0], size)
            self.put(operands[1], size, value if self.holds(found[1]) else self.get(operands[1], size))
        elif found := re.fullmatch(r"set(\w+)", word):
            self.put(operands[0], 1, self.holds(found[1]))
        else:
            return False
        return True

    def arithmetic(self, word: str, operands: tuple[str, ...]) -> bool:
        found = re.fullmatch(r"([a-z]+?)([bwlq])", word)
        if not found:
            return word in ("nop", "endbr64")
        kind, size = found[1], SIZES[found[2]]
        if kind in ("add", "sub", "adc", "sbb", "cmp", "and", "or", "xor", "test"):
            self.two(kind, size, operands)
        elif kind in ("inc", "dec", "neg", "not"):
            self.one(kind, size, operands[0])
        elif kind in ("shl", "shr", "sar", "rol"):
            self.shift(kind, size, operands)
        elif kind in ("imul", "mul", "div"):
            self.product(kind, size, operands)
        elif kind in ("tzcnt", "bsf", "bsr"):
            value = self.get(operands[0], size)
            lowest = (value & -value).bit_length() - 1 if value else 8 * size
            self.put(operands[1], size, lowest if kind != "bsr" else value.bit_length() - 1)
            self.flags |= {"z": value == 0}
        else:
            return False
        return True

    def two(self, kind: str, size: int, operands: tuple[str, ...]) -> None:
        if kind in ("xor", "sbb") and operands[0] == operands[1]:
            zero = self.sum_of(kind, 0, 0, size) if kind == "sbb" else self.marked(0, size)
            self.put(operands[1], size, zero)
            return
        other, one = self.get(operands[0], size), self.get(operands[1], size)
        if kind in ("and", "test", "or", "xor"):
            result = self.marked({"or": one | other, "xor": one ^ other}.get(kind, one & other), size)
        else:
            result = self.sum_of(kind, one, other, size)
        if kind not in ("cmp", "test"):
            self.put(operands[1], size, result)

    def one(self, kind: str, size: int, operand: str) -> None:
        value = self.get(operand, size)
        if kind == "not":
            self.put(operand, size, ~value)
            return
        carry = self.flags["c"]
        result = self.sum_of("sub", 0, value, size) if kind == "neg" else self.sum_of({"inc": "add", "dec": "sub"}[kind], value, 1, size)
        if kind != "neg":
            self.flags["c"] = carry
        self.put(operand, size, result)

    def shift(self, kind: str, size: int, operands: tuple[str, ...]) -> None:
        places = self.get(operands[0], 1) % (64 if size == 8 else 32) if operands[1:] else 1
        value, width = self.get(operands[-1], size), 8 * size
        if kind == "rol":
            result = value << places | value >> (width - places)
            self.put(operands[-1], size, result)
            return
        signed = value - (1 << width) if value >> (width - 1) else value
        result = {"shl": value << places, "shr": value >> places, "sar": signed >> places}[kind]
        carry = bool((value << places) >> width & 1) if kind == "shl" else bool(places and value >> (places - 1) & 1)
        self.put(operands[-1], size, self.marked(result, size, carry))

    def product(self, kind: str, size: int, operands: tuple[str, ...]) -> None:
        if kind == "imul" and operands[1:]:
            self.put(operands[-1], size, self.get(operands[0], size) * self.get(operands[-2], size))
        elif kind == "div":
            whole = self.get("%rdx", size) << 8 * size | self.get("%rax", size)
            quotient, rest = divmod(whole, self.get(operands[0], size))
            self.put("%rax", size, quotient)
            self.put("%rdx", size, rest)
        else:
            full = self.get("%rax", size) * self.get(operands[0], size)
            self.put("%rax", size, full)
            self.put("%rdx", size, full >> 8 * size)
            self.flags |= {"c": full >> 8 * size > 0, "o": full >> 8 * size > 0}
