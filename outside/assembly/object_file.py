"""Reads the code of an ELF object, and refuses what it doesn't know."""

import struct
from dataclasses import dataclass, field
from pathlib import Path

# The processors: the number that ELF has for each.
X86_64, AARCH64 = 62, 183

# Kinds of relocation by their number: what stands at its place is a call, or the address of a constant.
CALL, CONSTANT = "call", "constant"
KINDS = {
    X86_64: {2: (CONSTANT, "PC32"), 4: (CALL, "PLT32")},
    AARCH64: {
        283: (CALL, "CALL26"),
        282: (CALL, "JUMP26"),
        275: (CONSTANT, "ADR_PREL_PG_HI21"),
        299: (CONSTANT, "LDST128_ABS_LO12_NC"),
        286: (CONSTANT, "LDST64_ABS_LO12_NC"),
        277: (CONSTANT, "ADD_ABS_LO12_NC"),
    },
}
# What a section may be that is neither code nor a constant: it isn't loaded, or holds the table of symbols.
UNLOADED = {".strtab", ".symtab", ".shstrtab", ".comment", ".note.GNU-stack", ".llvm_addrsig"}
# What unwinders read. It is no part of what is proved, and isn't compared.
UNWINDING = ".eh_frame"
PROGBITS, SYMTAB, RELA = 1, 2, 4
WRITE, ALLOC, EXEC = 1, 2, 4


class Unknown(Exception):
    """The object has something that a text can't say."""


@dataclass(frozen=True)
class Relocation:
    """At which byte which symbol's address goes, how it is written there, and what is added to it."""

    at: int
    kind: str
    form: str
    symbol: str
    addend: int


@dataclass
class Section:
    """A section that is loaded: a function, or constants."""

    name: str
    code: bool
    align: int
    entry: int
    content: bytes
    symbols: list["Symbol"] = field(default_factory=list)
    relocations: list[Relocation] = field(default_factory=list)


@dataclass(frozen=True)
class Symbol:
    """A name, and whether other objects see it."""

    name: str
    at: int
    is_global: bool
    is_function: bool


@dataclass
class Object:
    """An object file: its processor, and what is loaded of it, in order."""

    machine: int
    sections: list[Section]


def name_in(strings: bytes, at: int) -> str:
    return strings[at : strings.index(b"\0", at)].decode()


def read(path: Path) -> Object:
    """Reads an object. Each section, symbol and relocation is known, or it is refused."""
    data = path.read_bytes()
    if data[:6] != b"\x7fELF\x02\x01":
        raise Unknown(f"{path}: no ELF object of 64 bits, least byte first")
    kind, machine = struct.unpack_from("<HH", data, 16)
    if kind != 1 or machine not in KINDS:
        raise Unknown(f"{path}: kind {kind} of a file for processor {machine}")
    offset, = struct.unpack_from("<Q", data, 40)
    size, count, names_at = struct.unpack_from("<HHH", data, 58)
    headers = [struct.unpack_from("<IIQQQQIIQQ", data, offset + size * at) for at in range(count)]
    content = [data[header[4] : header[4] + header[5]] for header in headers]
    names = [name_in(content[names_at], header[0]) for header in headers]
    loaded = {at: section_of(names[at], headers[at], content[at]) for at in range(1, count)}
    loaded = {at: section for at, section in loaded.items() if section}
    for at, header in enumerate(headers):
        if header[1] == SYMTAB:
            symbols = symbols_of(content[at], content[header[6]], names, loaded)
    for at, header in enumerate(headers):
        if header[1] == RELA and header[7] in loaded:
            read_relocations(content[at], symbols, loaded[header[7]], KINDS[machine])
    return Object(machine, list(loaded.values()))


def section_of(name: str, header: tuple, content: bytes) -> Section | None:
    """The section, if it is loaded."""
    kind, flags = header[1], header[2]
    if header[5] == 0 or name == UNWINDING:
        return None
    if not flags & ALLOC:
        if name not in UNLOADED and kind != RELA:
            raise Unknown(f"section {name}")
        return None
    if kind != PROGBITS or flags & WRITE:
        raise Unknown(f"section {name}, of kind {kind} with flags {flags}")
    code = bool(flags & EXEC)
    if not code and not name.startswith(".rodata.cst"):
        raise Unknown(f"section {name}, which is no code and no constant")
    return Section(name, code, header[8], header[9], content)


def symbols_of(table: bytes, strings: bytes, names: list[str], loaded: dict[int, Section]) -> list[str]:
    """The names of all symbols. Those of loaded sections are put there."""
    found = []
    for at in range(0, len(table), 24):
        name_at, info, visibility, index, value, _ = struct.unpack_from("<IBBHQQ", table, at)
        name, kind, bind = name_in(strings, name_at), info & 15, info >> 4
        if visibility not in (0, 2) or kind > 4 or bind > 1:
            raise Unknown(f"symbol {name}, of kind {kind}, bind {bind} and visibility {visibility}")
        if kind == 3:
            name = names[index]
        elif index in loaded and not name.startswith("$"):  # else it says where code begins, for ARM
            loaded[index].symbols.append(Symbol(name, value, bind == 1, kind == 2))
        found.append(name)
    return found


def read_relocations(table: bytes, symbols: list[str], section: Section, kinds: dict) -> None:
    """Puts the relocations into their section."""
    for at in range(0, len(table), 24):
        where, info, addend = struct.unpack_from("<QQq", table, at)
        if info & 0xFFFFFFFF not in kinds:
            raise Unknown(f"relocation of kind {info & 0xFFFFFFFF} in {section.name}")
        kind, form = kinds[info & 0xFFFFFFFF]
        section.relocations.append(Relocation(where, kind, form, symbols[info >> 32], addend))
