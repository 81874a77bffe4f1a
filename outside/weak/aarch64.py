"""What the instructions of AArch64 do that the texts have, for machine.py."""

import re

from machine import END, STACK, Machine, Unknown

MASK = (1 << 64) - 1
SIZES = {"b": 1, "h": 2, "": 0}


def number_of(word: str) -> int:
    return int(word.lstrip("#"), 0)


class AArch64(Machine):
    """The processor."""

    PLAIN_STORE = "str"
    flags = {"n": False, "z": False, "c": False, "v": False}

    def enter(self, at: int, arguments: tuple[int, ...]) -> None:
        self.registers |= {f"x{one}": value for one, value in enumerate(arguments)}
        self.registers |= {f"x{one}": 0 for one in range(19, 30)} | {"x30": END, "sp": STACK}
        self.at = at

    def answer(self) -> int:
        return self.registers["x0"]

    # Operands

    def size(self, word: str) -> int:
        return {"w": 4, "x": 8, "q": 16, "d": 8, "s": 8 if word == "sp" else 4}[word[0]]

    def get(self, word: str) -> int:
        if word in ("xzr", "wzr"):
            return 0
        if word[0] in "qdv":
            return self.registers["v" + re.match(r"[qdv](\d+)", word)[1]]
        if word == "sp":
            return self.registers["sp"]
        if (name := "x" + word[1:]) not in self.registers:
            raise Unknown(f"{word} has nothing")
        return self.registers[name] & (MASK if word[0] == "x" else 0xFFFFFFFF)

    def put(self, word: str, value: int) -> None:
        if word[0] in "qv":
            self.registers["v" + re.match(r"[qv](\d+)", word)[1]] = value
        elif word == "sp":
            self.registers["sp"] = value & MASK
        elif word not in ("xzr", "wzr"):
            self.registers["x" + word[1:]] = value & (MASK if word[0] == "x" else 0xFFFFFFFF)

    def value(self, words: tuple[str, ...]) -> int:
        """What a last operand names: a number, a part of a symbol, or a register that may be shifted."""
        word = words[0]
        if word.startswith(":"):
            return self.part_of(word)
        value = number_of(word) if word.startswith("#") else self.get(word)
        if words[1:] and (found := re.match(r"(lsl|lsr|uxtw|sxtw)(?: #(\d+))?$", words[1])):
            places = int(found[2] or 0)
            return value >> places if found[1] == "lsr" else value << places
        if words[1:]:
            raise Unknown(f"an operand {words}")
        return value

    def part_of(self, word: str) -> int:
        """A part of a symbol's address: all of it stands in the upper one."""
        _, kind, name = word.split(":", 2)
        if kind in ("tprel_hi12", "got"):
            return self.symbol(name) if kind == "tprel_hi12" else self.pointer(name)
        return 0

    def address(self, words: tuple[str, ...]) -> int:
        """The address that a memory operand names, after which its register may move."""
        inner = words[0].strip("[]!")
        parts = tuple(one.strip() for one in inner.split(","))
        base = self.get(parts[0])
        at = base + (self.value(parts[1:]) if parts[1:] else 0)
        if words[0].endswith("!"):
            self.put(parts[0], at)
        if words[1:]:
            self.put(parts[0], base + number_of(words[1]))
        return at & MASK

    def holds(self, condition: str) -> bool:
        n, z, c, v = (self.flags[name] for name in "nzcv")
        known = {"eq": z, "hs": c, "mi": n, "vs": v, "hi": c and not z, "ge": n == v, "gt": n == v and not z}
        known |= {"ne": not z, "lo": not c, "pl": not n, "vc": not v, "ls": not c or z, "lt": n != v, "le": n != v or z}
        return known[condition]

    def added(self, one: int, other: int, carry: int, width: int) -> int:
        """A sum, which sets the flags."""
        full = one % (1 << width) + other % (1 << width) + carry
        result = full % (1 << width)
        signs = [value >> (width - 1) & 1 for value in (one, other % (1 << width), result)]
        self.flags = {"n": bool(signs[2]), "z": result == 0, "c": full >> width > 0, "v": signs[0] == signs[1] != signs[2]}
        return result

    def compared(self, one: int, other: int, width: int) -> int:
        return self.added(one, ~other, 1, width)

    def tested(self, value: int, width: int) -> int:
        self.flags = {"n": bool(value >> (width - 1) & 1), "z": value % (1 << width) == 0, "c": False, "v": False}
        return value

    # Instructions

    def step(self, word: str, operands: tuple[str, ...]) -> None:
        for kind in (self.jump, self.memory_step, self.atomic, self.arithmetic, self.other):
            if kind(word, operands):
                return
        raise Unknown("an instruction that isn't known")

    def jump(self, word: str, operands: tuple[str, ...]) -> bool:
        taken = True
        if word.startswith("b."):
            taken = self.holds(word[2:])
        elif word in ("cbz", "cbnz"):
            taken = (self.get(operands[0]) == 0) == (word == "cbz")
        elif word in ("tbz", "tbnz"):
            taken = (self.get(operands[0]) >> number_of(operands[1]) & 1 == 0) == (word == "tbz")
        elif word == "ret":
            self.at = self.registers["x30"]
            return True
        elif word in ("blr", "br"):
            self.go(word == "blr", self.called(self.get(operands[0])))
            return True
        elif word not in ("b", "bl"):
            return False
        if taken:
            self.go(word == "bl", self.target(operands[-1]))
        return True

    def go(self, calls: bool, to: int | str) -> None:
        if isinstance(to, int):
            if calls:
                self.registers["x30"] = self.at
            self.at = to
            return
        answers = self.external(to, [self.registers.get(f"x{one}", 0) for one in range(8)])
        self.registers |= {f"x{one}": value for one, value in enumerate(answers)}
        if not calls:
            self.at = self.registers["x30"]

    def memory_step(self, word: str, operands: tuple[str, ...]) -> bool:
        found = re.fullmatch(r"(ld|st)(r|ur|p)([bh]?)", word)
        if not found:
            return False
        count = 2 if found[2] == "p" else 1
        size = SIZES[found[3]] or self.size(operands[0])
        at = self.address(operands[count:])
        for which, register in enumerate(operands[:count]):
            if found[1] == "ld":
                self.put(register, self.load(at + size * which, size, "ldr"))
            elif size == 16:
                self.fill(at + size * which, list(self.get(register).to_bytes(16, "little")))
            else:
                self.store(at + size * which, size, self.get(register), "str")
        return True

    def atomic(self, word: str, operands: tuple[str, ...]) -> bool:
        if word == "clrex":
            return True
        if word in ("dmb", "dsb"):
            self.fence(f"dmb {operands[0]}")
            return True
        found = re.fullmatch(r"(ldar|ldapr|ldapur|stlr|ldaxr|ldxr|stlxr|stxr|cas|swp|ldadd|ldset|ldclr|ldeor)(al|a|l|)([bh]?)", word)
        if not found:
            return False
        kind, size = found[1], SIZES[found[3]] or self.size(operands[-2])
        at = self.address(operands[-1:])
        self.touched.append((kind + found[2], at))
        if kind in ("ldar", "ldapr", "ldapur", "ldaxr", "ldxr"):
            self.put(operands[0], self.load(at, size, kind))
        elif kind in ("stlr", "stlxr", "stxr"):
            self.store(at, size, self.get(operands[-2]), kind)
            if kind != "stlr":
                self.put(operands[0], 0)
        else:
            self.change_by(kind, operands, at, size)
        return True

    def change_by(self, kind: str, operands: tuple[str, ...], at: int, size: int) -> None:
        first, second = self.get(operands[0]), self.get(operands[1])
        if kind == "cas":
            expected = first % (1 << 8 * size)
            self.put(operands[0], self.change(at, size, lambda old: second if old == expected else old))
            if self.get(operands[0]) != expected:
                raise Unknown("a compare and swap that fails")
            return
        new = {"swp": lambda _: first, "ldadd": lambda old: old + first, "ldset": lambda old: old | first}
        new |= {"ldclr": lambda old: old & ~first, "ldeor": lambda old: old ^ first}
        self.put(operands[1], self.change(at, size, new[kind]))

    def arithmetic(self, word: str, operands: tuple[str, ...]) -> bool:
        width = 8 * self.size(operands[0]) if operands and operands[0][0] in "wxs" else 0
        if word in ("cmp", "cmn", "tst"):
            one, other = self.get(operands[0]), self.value(operands[1:])
            if word == "tst":
                self.tested(one & other, width)
            else:
                self.added(one, other, 0, width) if word == "cmn" else self.compared(one, other, width)
            return True
        if word not in ("add", "adds", "sub", "subs", "and", "ands", "orr", "eor", "bic", "lsl", "lsr", "mul", "umull", "udiv", "umulh"):
            return False
        one, other = self.get(operands[1]), self.value(operands[2:])
        mask = (1 << width) - 1
        results = {"add": one + other, "adds": one + other, "sub": one - other, "subs": one - other, "and": one & other}
        results |= {"ands": one & other, "orr": one | other, "eor": one ^ other, "bic": one & ~other, "mul": one * other, "umull": one * other}
        results |= {"lsl": one << other % width, "lsr": one >> other % width, "umulh": one * other >> 64}
        results["udiv"] = one // other if other & mask else 0
        if word in ("adds", "subs"):
            self.added(one, other, 0, width) if word == "adds" else self.compared(one, other, width)
        elif word == "ands":
            self.tested(one & other & mask, width)
        self.put(operands[0], results[word])
        return True

    def other(self, word: str, operands: tuple[str, ...]) -> bool:
        width = 8 * self.size(operands[0]) if operands and operands[0][0] in "wxs" else 0
        if word in ("csel", "csinc", "csinv"):
            one, other = self.get(operands[1]), self.get(operands[2])
            otherwise = {"csel": other, "csinc": other + 1, "csinv": ~other}[word]
            self.put(operands[0], one if self.holds(operands[3]) else otherwise)
        elif word in ("cset", "cinc"):
            before = 0 if word == "cset" else self.get(operands[1])
            self.put(operands[0], before + self.holds(operands[-1]))
        elif word in ("ccmp", "ccmn"):
            if not self.holds(operands[3]):
                given = number_of(operands[2])
                self.flags = {name: bool(given >> place & 1) for place, name in enumerate("vczn")}
            elif word == "ccmp":
                self.compared(self.get(operands[0]), self.value(operands[1:2]), width)
            else:
                self.added(self.get(operands[0]), self.value(operands[1:2]), 0, width)
        elif word in ("mov", "mvn", "neg"):
            value = self.value(operands[1:])
            self.put(operands[0], {"mov": value, "mvn": ~value, "neg": -value}[word])
        elif word == "movk":
            places = int(operands[2].split("#")[1]) if operands[2:] else 0
            kept = self.get(operands[0]) & ~(0xFFFF << places)
            self.put(operands[0], kept | number_of(operands[1]) << places)
        elif word in ("madd", "umaddl", "msub"):
            product = self.get(operands[1]) * self.get(operands[2])
            self.put(operands[0], self.get(operands[3]) + (-product if word == "msub" else product))
        elif word in ("rbit", "clz"):
            bits = format(self.get(operands[1]), f"0{width}b")
            self.put(operands[0], int(bits[::-1], 2) if word == "rbit" else len(bits) - len(bits.lstrip("0")))
        elif word == "mrs" and operands[1] == "TPIDR_EL0":
            self.put(operands[0], 0)
        elif word == "adrp":
            self.put(operands[0], self.part_of(operands[1]) if operands[1].startswith(":") else self.symbol(operands[1]))
        elif word in ("movi", "dup"):
            self.spread(operands)
        elif word not in ("nop", "bti", "hint"):
            return False
        return True

    def spread(self, operands: tuple[str, ...]) -> None:
        """Fills a vector with one value."""
        found = re.fullmatch(r"(v\d+)\.(\d+)([bhsd])", operands[0])
        bits = {"b": 8, "h": 16, "s": 32, "d": 64}[found[3]]
        value = self.value(operands[1:2]) % (1 << bits)
        self.put(found[1], sum(value << bits * one for one in range(int(found[2]))))
