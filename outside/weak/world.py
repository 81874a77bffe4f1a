"""Pools in made-up memory, and threads that call the texts' functions there, each alone."""

from dataclasses import dataclass, replace
from pathlib import Path

from aarch64 import AArch64
from litmus import MODELS
from machine import Code, Machine, Memory, Step, Unknown
from x86_64 import X86

KINDS: dict[str, type[Machine]] = {"aarch64": AArch64, "x86_64": X86}
PLAIN = {"aarch64": ("ldr", "str"), "x86_64": ("mov", "mov")}
ORDERED = {"aarch64": ("ldar", "stlr"), "x86_64": ("mov", "mov")}
# What the calls of the library answer.
DONE, ALL_OUT = 0, 1


@dataclass(frozen=True)
class Form:
    """A processor, by one text of its instructions."""

    name: str
    processor: str
    code: Code

    @property
    def model(self):
        return MODELS[self.processor]


class World:
    """Memory that was made by calls which ended before the test's threads began."""

    def __init__(self, form: Form):
        self.form = form
        self.memory = Memory()
        # The places that a test is about, by their addresses, and how long each is.
        self.places: dict[int, str] = {}
        self.sizes: dict[str, int] = {}

    def machine(self, memory: Memory, places: dict[int, str]) -> Machine:
        return KINDS[self.form.processor](self.form.code, memory, places)

    def call(self, part: str, *arguments: int) -> int:
        """Makes a call before the threads begin."""
        return self.machine(self.memory, {}).run(self.form.code.name(part), *arguments)

    def done(self, part: str, *arguments: int) -> None:
        if (answer := self.call(part, *arguments)) != DONE:
            raise Unknown(f"{part} answers {answer}")

    def touched(self, part: str, *arguments: int) -> list[tuple[str, int]]:
        """What the atomic steps of a call touch, which isn't made."""
        machine = self.machine(self.memory.copy(), {})
        machine.run(self.form.code.name(part), *arguments)
        return machine.touched

    def place(self, name: str, at: int, size: int = 8) -> None:
        """Names a place of the test."""
        self.places[at] = name
        self.sizes[name] = size

    def first(self) -> dict[str, int]:
        """What the places have at first."""
        return {name: self.memory.read(at, self.sizes[name]) for at, name in self.places.items()}

    def make(self, names: str) -> None:
        """Makes places of the program that calls, which are zero."""
        for name in names.split():
            self.place(name, self.memory.take(8, 0))

    def at(self, name: str) -> int:
        return next(at for at, place in self.places.items() if place == name)


class Library:
    """A pool of the library, with handles."""

    def __init__(self, world: World, items: int, handles: int):
        self.world = world
        self.handles = [world.memory.take(8, 0) for _ in range(handles)]
        world.done(r"^kdr_\d+_\d+_\d+_handle_new$", items, 0, self.handles[0])
        for handle in self.handles[1:]:
            world.done(r"^kdr_\d+_\d+_\d+_handle_share$", self.handles[0], handle)

    def word(self, page: int) -> int:
        """The address of a page's word: what a pull there changes."""
        place = self.world.memory.take(16, 0)
        touched = self.world.touched(PULL, self.handles[0], page, place)
        return next(at for kind, at in touched if kind.startswith(("stlxr", "stxr", "cas", "cmpxchg")))

    def pulled(self, page: int = 0) -> int:
        """Pulls a place before the threads begin. The address of what names it."""
        place = self.world.memory.take(16, 0)
        self.world.done(PULL, self.handles[0], page, place)
        return place


    def returned(self, place: int) -> None:
        """Returns a place before the threads begin."""
        self.world.done(RETURN, self.handles[0], place)


PULL = r"^kdr_\d+_\d+_\d+_place_pull$"
DROP = r"^kdr_\d+_\d+_\d+_pool_drop$"
RETURN = r"^kdr_\d+_\d+_\d+_place_return$"


class Thread:
    """A thread of a test: it makes calls, alone, from what the test says that it finds."""

    def __init__(self, world: World, number: int, after: "Thread | None" = None):
        self.world = world
        self.number = number
        # It finds what there was before the threads, or what another one left.
        self.memory = (after or world).memory.copy()
        self.steps: list[Step] = []

    def finds(self, name: str, value: int) -> None:
        """Says what this thread finds at a place."""
        self.memory.write(self.world.at(name), self.world.sizes[name], value)

    def left(self, name: str) -> int:
        """What this thread has left at a place."""
        return self.memory.read(self.world.at(name), self.world.sizes[name])

    def call(self, part: str, *arguments: int, **reads: list[int]) -> int:
        machine = self.world.machine(self.memory, self.world.places)
        machine.reads = reads
        answer = machine.run(self.world.form.code.name(part), *arguments)
        self.steps += machine.steps
        return answer

    def must(self, answer: int, part: str, *arguments: int, **reads: list[int]) -> None:
        """Makes a call that has to answer so."""
        if (found := self.call(part, *arguments, **reads)) != answer:
            raise Unknown(f"{part} answers {found}, not {answer}")

    # Steps of the program that calls

    def load(self, name: str, value: int) -> None:
        """A plain load of a place, which is to find this value."""
        self.steps.append(Step(PLAIN[self.world.form.processor][0], name, read=value))

    def store(self, name: str, value: int) -> None:
        """A plain store to a place."""
        self.steps.append(Step(PLAIN[self.world.form.processor][1], name, written=value))

    def tell(self, name: str, value: int) -> None:
        """A store that releases."""
        self.steps.append(Step(ORDERED[self.world.form.processor][1], name, written=value))

    def hear(self, name: str, value: int) -> None:
        """A load that acquires."""
        self.steps.append(Step(ORDERED[self.world.form.processor][0], name, read=value))

    def instead(self, name: str, value: int) -> None:
        """Asks whether the first load of a place may find this value instead."""
        at = min(at for at, step in enumerate(self.steps) if step.place == name and step.read is not None)
        self.steps[at] = replace(self.steps[at], read=value)

    # Calls of the library

    def pull(self, pool: Library, page: int = 0, **reads: list[int]) -> int:
        """Pulls a place. The address of what names it."""
        place = self.memory.take(16, 0)
        self.must(DONE, PULL, pool.handles[self.number], page, place, **reads)
        return place

    def refused(self, pool: Library, page: int = 0, **reads: list[int]) -> None:
        """Makes a pull that finds all places out."""
        self.must(ALL_OUT, PULL, pool.handles[self.number], page, self.memory.take(16, 0), **reads)

    def give_back(self, pool: Library, place: int) -> None:
        """Returns a place."""
        self.must(DONE, RETURN, pool.handles[self.number], place)


def texts(folder: Path, names: dict[str, str]) -> list[Form]:
    """The forms of these texts, by their names."""
    return [Form(name, name.split("-")[0], Code(folder / file)) for name, file in names.items()]
