"""Says the text of the proved code for Linux with the directives of other systems.

No instruction changes, but where macOS keeps x18.
"""

import re
from collections.abc import Callable
from dataclasses import dataclass

from object_file import Unknown
from registers import spare

NAME = r"\bkdr_\d+_\d+_\d+_\w+"


def section_of(line: str) -> str | None:
    """The section that a line begins."""
    found = re.match(r'\t\.section (\S+), "(?:ax|aM)", %progbits', line)
    return found[1] if found else None


def is_dropped(line: str) -> bool:
    """Whether a line says what ELF alone has."""
    return line.startswith(("\t.size ", "\t.type ")) or ".note.GNU-stack" in line


def windows(lines: list[str]) -> list[str]:
    """The text for x86-64 on Windows. Its tables of unwinding have another form, and are left out."""
    found = []
    for line in lines:
        if section := section_of(line):
            name = section.removeprefix(".text.")
            found.append(f'\t.section .text${name}, "xr"' if name != section else '\t.section .rdata, "dr"')
        elif not is_dropped(line) and not line.startswith(("\t.hidden ", "\t.cfi_")):
            found.append(line)
    return found


def macos(lines: list[str]) -> list[str]:
    """The text for macOS, where names of C begin with an underscore."""
    found = []
    for line in lines:
        if section := section_of(line):
            is_code = section.startswith(".text.")
            found.append("\t.section __TEXT,__text,regular,pure_instructions" if is_code else "\t.section __TEXT,__const")
        elif line.startswith("\t.hidden "):
            found.append(line.replace("\t.hidden ", "\t.private_extern "))
        elif ".note.GNU-stack" in line:
            found.append("\t.subsections_via_symbols")
        elif not is_dropped(line):
            found.append(line)
    return [named(line) for line in found]


def macos_without_x18(lines: list[str]) -> list[str]:
    """The text for AArch64 on macOS, which keeps register x18 for itself.

    It also asks that x29 leads to the caller's frame, which check_formats sees. A result of less
    than 32 bits has to fill them: that of cache_keeps does, and no other call has one.
    """
    return macos(spare(lines))


def named(line: str) -> str:
    """A line with the names and labels of macOS."""
    if line.startswith(("# ", "// ")):
        return line
    line = re.sub(NAME, lambda name: f"_{name[0]}", line)
    line = re.sub(r"\.L(?=\d)", "L", line)
    line = re.sub(r"(\tadrp\t\w+, )(L\w+)$", r"\1\2@PAGE", line)
    line = re.sub(r":lo12:(L\w+)", r"\1@PAGEOFF", line)
    if ":lo12:" in line or "\tadrp" in line and "@PAGE" not in line:
        raise Unknown(f"{line}: an address that macOS doesn't write so")
    return line


@dataclass(frozen=True)
class Other:
    """A system other than Linux: its processor, the target as clang names it, how its text is made
    of Linux's, and its file."""

    processor: str
    target: str
    made_by: Callable[[list[str]], list[str]]
    file: str


OTHERS = [
    Other("x86_64", "x86_64-w64-windows-gnu", windows, "x86_64_windows.s"),
    Other("x86_64", "x86_64-apple-macosx11.0", macos, "x86_64_macos.s"),
    Other("aarch64", "arm64-apple-macosx11.0", macos_without_x18, "aarch64_macos.s"),
]
