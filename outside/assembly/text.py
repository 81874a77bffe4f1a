"""Writes the code of an object as a text for assemblers, instruction by instruction."""

import re
import subprocess
from dataclasses import dataclass
from pathlib import Path

from object_file import AARCH64, CALL, X86_64, Object, Relocation, Section, Unknown
from unwind import with_unwinding

# The names by which the checker's code asks for memory.
MEMORY = {"rattle_alloc": "alloc", "rattle_realloc": "realloc", "rattle_dealloc": "dealloc"}
COMMENT = {X86_64: "#", AARCH64: "//"}
JUMP = re.compile(r"(j\w+|b|b\.\w+|cbn?z|tbn?z)$")
# How a function is called, or left for another one: on x86-64 by a conditional jump too.
TO_A_FUNCTION = re.compile(r"(callq?|j\w+|bl|b)$")


@dataclass(frozen=True)
class Instruction:
    """An instruction: its place, its bytes, and what the disassembler says."""

    at: int
    content: bytes
    mnemonic: str
    operands: str

    def end(self) -> int:
        return self.at + len(self.content)

    def said(self) -> str:
        return f"{self.mnemonic} {self.operands}".strip()


def disassemble(path: Path, sections: list[Section]) -> dict[str, list[Instruction]]:
    """The instructions of each section of code."""
    words = ["llvm-objdump", "-d", "--no-show-raw-insn", str(path)]
    said = subprocess.run(words, capture_output=True, text=True, check=True).stdout
    code = {section.name: section.content for section in sections if section.code}
    found: dict[str, list[tuple[int, str, str]]] = {}
    for line in said.splitlines():
        if head := re.match(r"Disassembly of section (.*):$", line):
            lines = found.setdefault(head[1], [])
        elif one := re.match(r"\s*([0-9a-f]+):\s+(\S+)\s*(.*)$", line):
            lines.append((int(one[1], 16), one[2], one[3]))
    return {name: instructions_of(found[name], content) for name, content in code.items()}


def joined(lines: list[tuple[int, str, str]]) -> list[tuple[int, str, str]]:
    """The instructions, each with its prefix, which the disassembler has on a line of its own."""
    found: list[tuple[int, str, str]] = []
    prefix = None
    for at, mnemonic, operands in lines:
        if mnemonic in ("lock", "rep", "repne"):
            prefix = (at, mnemonic)
            continue
        found.append((prefix[0], f"{prefix[1]} {mnemonic}", operands) if prefix else (at, mnemonic, operands))
        prefix = None
    return found


def instructions_of(lines: list[tuple[int, str, str]], content: bytes) -> list[Instruction]:
    """The instructions of a section, which are all its bytes."""
    lines = joined(lines)
    ends = [at for at, _, _ in lines[1:]] + [len(content)]
    found = [Instruction(at, content[at:end], mnemonic, operands) for (at, mnemonic, operands), end in zip(lines, ends)]
    if b"".join(one.content for one in found) != content or any("unknown" in one.said() for one in found):
        raise Unknown("bytes that are no instructions")
    return found


class Text:
    """The text of an object, whose names carry a version."""

    def __init__(self, code: Object, path: Path, version: str):
        self.code = code
        self.comment = COMMENT[code.machine]
        self.prefix = f"kdr_{version}_"
        self.label = f".L{version}_"
        self.instructions = disassemble(path, code.sections)
        self.names = self.short_names()

    def short_names(self) -> dict[str, str]:
        """A short name of each section, and of what is asked of others."""
        names: dict[str, str] = {}
        for section in self.code.sections:
            name = section.name
            if section.code:
                if len(section.symbols) != 1 or section.symbols[0].at or not section.symbols[0].is_function:
                    raise Unknown(f"{name}: a section that isn't one function")
                source = source_name(section)
                name = source.removeprefix("kdr_") if section.symbols[0].is_global else source.split("::")[-1]
                if not re.fullmatch(r"\w+", name) or name in names.values():
                    raise Unknown(f"{source}: no name that is its own")
                names[section.symbols[0].name] = name
            names[section.name] = name
        return names | MEMORY

    def write(self, as_bytes: set[str]) -> list[str]:
        """The lines of the text. Instructions that are said so are written as bytes."""
        lines = []
        for section in self.code.sections:
            lines += self.function(section, as_bytes) if section.code else self.constants(section)
        return lines

    def function(self, section: Section, as_bytes: set[str]) -> list[str]:
        """The lines of a function."""
        short = self.names[section.name]
        name, instructions = self.prefix + short, self.instructions[section.name]
        targets = self.targets(section, short)
        lines = ["", f"{self.comment} {source_name(section)}"]
        lines += [f"\t.section .text.{name}, \"ax\", %progbits", f"\t.p2align {section.align.bit_length() - 1}"]
        if section.symbols[0].is_global:
            lines += [f"\t.globl {name}", f"\t.hidden {name}"]
        lines += [f"\t.type {name}, %function", f"{name}:"]
        code = []
        for one in instructions:
            if one.at in targets:
                code.append(f"{targets[one.at]}:")
            code.append("\t" + self.instruction(section, one, targets, as_bytes))
        return [*lines, *with_unwinding(self.code.machine, code), f"\t.size {name}, . - {name}"]

    def targets(self, section: Section, short: str) -> dict[int, str]:
        """A label of each instruction to which one of the function jumps."""
        instructions = self.instructions[section.name]
        starts = {one.at for one in instructions}
        found = sorted({target_of(one) for one in instructions if jumps(one) and not asked(section, one)})
        if not set(found) <= starts:
            raise Unknown(f"{section.name}: a jump to no instruction")
        return {at: f"{self.label}{short}_{number}" for number, at in enumerate(found, 1)}

    def instruction(self, section: Section, one: Instruction, targets: dict[int, str], as_bytes: set[str]) -> str:
        """The line of an instruction."""
        links = asked(section, one)
        if len(links) > 1:
            raise Unknown(f"{section.name}: two addresses in one instruction")
        if links:
            return f"{one.mnemonic}\t{self.linked(one, links[0])}"
        if jumps(one):
            start = one.operands[: re.search(r"(0x)?[0-9a-f]+( <.*>)?$", one.operands).start()]
            return f"{one.mnemonic}\t{start}{targets[target_of(one)]}"
        said = one.said()
        if said not in as_bytes:
            return f"{one.mnemonic}\t{one.operands}".rstrip()
        if self.code.machine == AARCH64:
            return f".inst 0x{int.from_bytes(one.content, 'little'):08x} {self.comment} {said}"
        return f".byte {', '.join(f'0x{byte:02x}' for byte in one.content)} {self.comment} {said}"

    def linked(self, one: Instruction, link: Relocation) -> str:
        """The operands of an instruction that has the address of a function or of a constant."""
        if link.kind == CALL:
            if not TO_A_FUNCTION.match(one.mnemonic) or link.addend not in (0, -4):
                raise Unknown(f"a call by {one.said()}")
            return self.prefix + self.names[link.symbol]
        if self.code.machine == X86_64:
            label = self.constant(link.symbol, link.addend + one.end() - link.at)
            return replace_once(one.operands, "(%rip)", f"{label}(%rip)")
        label = self.constant(link.symbol, link.addend)
        if one.mnemonic == "adrp":
            return f"{one.operands.split(',')[0]}, {label}"
        if one.mnemonic == "add":
            return f"{one.operands.rsplit(',', 1)[0]}, :lo12:{label}"
        return replace_once(one.operands, "]", f", :lo12:{label}]")

    def constant(self, symbol: str, offset: int) -> str:
        """The label of a constant."""
        section, start = self.place(symbol)
        if section.code or (start + offset) % section.entry:
            raise Unknown(f"the address of {symbol} and {offset}")
        return f"{self.label}constant_{section.entry}_{(start + offset) // section.entry}"

    def place(self, symbol: str) -> tuple[Section, int]:
        """The section of a symbol, and where in it."""
        for section in self.code.sections:
            for one in section.symbols:
                if one.name == symbol:
                    return section, one.at
            if section.name == symbol:
                return section, 0
        raise Unknown(f"an address of {symbol}")

    def constants(self, section: Section) -> list[str]:
        """The lines of a section of constants, which all have one size."""
        size = section.entry
        if section.relocations or not size or len(section.content) % size:
            raise Unknown(f"{section.name}: constants of many sizes")
        lines = ["", f"{self.comment} constants", f"\t.section {section.name}, \"aM\", %progbits, {size}"]
        lines.append(f"\t.p2align {section.align.bit_length() - 1}")
        for at in range(0, len(section.content), size):
            words = ", ".join(f"0x{byte:02x}" for byte in section.content[at : at + size])
            lines += [f"{self.label}constant_{size}_{at // size}:", f"\t.byte {words}"]
        return lines


def asked(section: Section, one: Instruction) -> list[Relocation]:
    """The addresses in an instruction that a linker fills in."""
    return [link for link in section.relocations if one.at <= link.at < one.end()]


def jumps(one: Instruction) -> bool:
    """Whether it jumps to a place of its section."""
    return JUMP.match(one.mnemonic) is not None and target_of(one) is not None


def source_name(section: Section) -> str:
    """The function's name in its source, without the number of its instance."""
    return re.sub(r"::<#[0-9a-f]+>$", "", section.symbols[0].name)


def target_of(one: Instruction) -> int | None:
    """To which place of its section a jump goes."""
    found = re.search(r"(?:^|[ ,])0x([0-9a-f]+)(?: <.*>)?$", one.operands)
    return int(found[1], 16) if found else None


def replace_once(text: str, old: str, new: str) -> str:
    text = re.sub(r"\s*#.*$", "", text)
    if text.count(old) != 1:
        raise Unknown(f"no address can be written into {text}")
    return text.replace(old, new)
