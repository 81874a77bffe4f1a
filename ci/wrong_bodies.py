"""Reads the wrong bodies of the repository, and plants them: the must-fail edits of the gate, and
those of wrong_bodies/.

The scripts that check and try wrong bodies stand on this module. wrong_bodies/README.md says how a
body is written.
"""

import re
import subprocess
from collections.abc import Iterator
from pathlib import Path
from typing import NamedTuple

ROOT = Path(__file__).resolve().parent.parent
# What may catch a body.
PROVER = "the prover"
COMPILER = re.compile(r"the compiler, ([\w-]+(?:, [\w-]+)*)")
TEST = re.compile(
    r"(?:a test|the test (\w+))(?:, with (a request|request \d+) for memory refused)?"
)
RUN = re.compile(r"a run of (\d+) (pages|rounds|calls)(?: with seed (\d+))?")
STOPPED = re.compile(r"ci/stopped at (\w+)")


def kind_of(catcher: str) -> str:
    """What catches a body: 'prover', 'compiler' or 'tests', or nothing if it isn't known."""
    if catcher == PROVER:
        return "prover"
    if COMPILER.fullmatch(catcher):
        return "compiler"
    return "tests" if any(way.fullmatch(catcher) for way in (TEST, RUN, STOPPED)) else ""


class Mistake(Exception):
    """What is wrong with the text of a body, or keeps it from being planted."""


class Change(NamedTuple):
    """A text that becomes another one. It stands once in its file, as earlier changes left that."""

    file: str
    old: str
    new: str


class WrongBody(NamedTuple):
    """A wrong body: the crate whose check or tests catch it, its name there, what is wrong, what
    catches it, and its changes. If these are those of a must-fail edit, `edit` names that.
    """

    crate: str
    name: str
    wrong: str
    catchers: list[str]
    changes: list[Change]
    edit: str = ""

    def __str__(self) -> str:
        return f"{self.crate}/{self.name}"


def fields_of(text: str, where: str) -> list[tuple[str, str]]:
    """The lines 'key: words' of a text, which stands there."""
    fields = []
    for line in text.splitlines():
        key, colon, words = line.partition(":")
        if not colon:
            raise Mistake(f"{where}: this is no line 'key: words': {line}")
        fields.append((key, words.removeprefix(" ")))
    return fields


def changes_of(fields: list[tuple[str, str]], folder: str) -> list[Change]:
    """The changes that lines 'file:', 'old:' and 'new:' tell. File names begin in the folder."""
    changes, file, old = [], "", ""
    for key, words in fields:
        if key == "file":
            file = folder + words.strip()
        elif key == "old":
            old = words
        elif key == "new":
            changes.append(Change(file, old, words))
    return changes


def must_fail_edit(edit: Path) -> WrongBody:
    """A must-fail edit of the gate. Its first line says what is wrong."""
    crate = edit.parent.parent.name
    first, _, rest = edit.read_text().partition("\n")
    if not first.startswith("# "):
        raise Mistake(f"{edit.relative_to(ROOT)}: no first line '# ..' says what is wrong")
    changes = changes_of(fields_of(rest, edit.name), f"crates/{crate}/")
    return WrongBody(crate, edit.stem, first[2:], [PROVER], changes)


def body_of(text: str, crate: str) -> WrongBody:
    """A body of wrong_bodies/CRATE.txt."""
    fields = fields_of(text, crate)
    keys = " ".join(key for key, _ in fields)
    said = dict(fields)
    name = f"{crate}/{said.get('body', text[:40])}"
    if not re.fullmatch(r"body wrong( caught by)+( edit|( file( old new)+)+)", keys):
        raise Mistake(f"{name}: a body doesn't have these lines: {keys}")
    catchers = [words for key, words in fields if key == "caught by"]
    edit = said.get("edit", "")
    if edit and not (ROOT / edit).is_file():
        raise Mistake(f"{name}: there is no {edit}")
    changes = must_fail_edit(ROOT / edit).changes if edit else changes_of(fields, "")
    return WrongBody(crate, said["body"], said["wrong"], catchers, changes, edit)


def listed_bodies() -> Iterator[WrongBody]:
    """The bodies of wrong_bodies/, by crate, then as its file has them."""
    for file in sorted(ROOT.glob("wrong_bodies/*.txt")):
        for text in file.read_text().rstrip("\n").split("\n\n"):
            yield body_of(text, file.stem)


def must_fail_edits() -> Iterator[WrongBody]:
    """The must-fail edits of the gate, by crate, then by name."""
    for edit in sorted(ROOT.glob("crates/*/must-fail/*.edit")):
        yield must_fail_edit(edit)


def texts_with(body: WrongBody, folder: Path) -> dict[Path, str]:
    """The texts of the files of a folder that the body changes, as it leaves them."""
    texts: dict[Path, str] = {}
    for file, old, new in body.changes:
        path = folder / file
        if path not in texts:
            if not path.is_file():
                raise Mistake(f"{body}: there is no {file}")
            texts[path] = path.read_text()
        count = texts[path].count(old)
        if count != 1:
            raise Mistake(f"{body}: this stands {count} times in {file}: {old.strip()}")
        texts[path] = texts[path].replace(old, new)
    return texts


def plant(body: WrongBody, folder: Path) -> dict[Path, str]:
    """Plants a body in a copy of the repository. Returns the former texts of what it changed."""
    texts = texts_with(body, folder)
    former = {path: path.read_text() for path in texts}
    for path, text in texts.items():
        path.write_text(text)
    return former


def compiler_refuses(wanted: str, words: list[str], folder: Path) -> bool:
    """Whether the command ends with these errors of the compiler, and with no others."""
    ran = subprocess.run(
        words, cwd=folder, stdin=subprocess.DEVNULL, capture_output=True, text=True
    )
    errors = set(re.findall(r"error\[([\w-]+)\]", ran.stdout + ran.stderr))
    return ran.returncode != 0 and errors == set(wanted.split(", "))
