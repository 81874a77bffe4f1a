"""Tests of the Rust crate's `LazyPool`: who waits for an item, who returns one, and who closes the pool."""

from kept import NO_NUMBER, NONE, is_thread
from machine import SLEEPS, Unknown
from testing import Test, Threads
from world import Thread, World

CHANGES = ("stlxr", "stxr", "cas", "swp", "ld", "cmpxchg", "xadd", "inc", "add", "or")
LOADS = ("ldar", "ldapr", "ldaxr", "ldxr")
CLOSED = 1


class Lazy:
    """A pool of one item, which is out. Two threads came once, so that each has its slots."""

    def __init__(self, world: World):
        self.world = world
        is_thread(world, world.memory, NO_NUMBER)
        self.pool = world.call("^weak_lazy_new$", 1)
        for thread in (1, 0):
            self.give_back(thread, self.pull(thread))
        self.out = self.pull(0)
        self.name_places()

    def name_places(self) -> None:
        """Names the slot where a return keeps the item, and the words of who waits."""
        waits, closes = self.changed(1, "weak_lazy_pull_wait"), self.changed(0, "weak_lazy_close")
        self.world.place("waiting", waits[0])
        self.world.place("mutex", waits[1], 4)
        self.world.place("asleep", waits[2])
        self.world.place("told", closes[1])
        before, after = self.world.memory, self.world.memory.copy()
        is_thread(self.world, after, 0)
        self.world.machine(after, {}).run("weak_lazy_give_back", self.out)
        words = {at - at % 8 for at, byte in after.bytes.items() if before.bytes.get(at, 0) != byte}
        (slot,) = [at for at in words if before.read(at, 8) & NONE == NONE and after.read(at, 8) & NONE == 0]
        self.world.place("slot", slot)

    def changed(self, thread: int, part: str) -> list[int]:
        """What a call changes by atomic steps, in their order."""
        memory = self.world.memory.copy()
        is_thread(self.world, memory, thread)
        machine = self.world.machine(memory, {})
        machine.run(part, self.pool)
        changed = [at for kind, at in machine.touched if kind.startswith(CHANGES) and not kind.startswith(LOADS)]
        return list(dict.fromkeys(changed))

    def pull(self, thread: int) -> int:
        """Pulls the item before the threads begin."""
        is_thread(self.world, self.world.memory, thread)
        if (guard := self.world.call("^weak_lazy_pull_wait$", self.pool)) in (SLEEPS, CLOSED, 0):
            raise Unknown("there is no item")
        return guard

    def give_back(self, thread: int, guard: int) -> None:
        """Returns it before the threads begin."""
        is_thread(self.world, self.world.memory, thread)
        self.world.call("^weak_lazy_give_back$", guard)


class Caller(Thread):
    """A thread of a test that calls the lazy pool."""

    def __init__(self, world: World, number: int, after: Thread | None = None):
        super().__init__(world, number, after)
        is_thread(world, self.memory, number)

    def sleeps(self, lazy: Lazy) -> None:
        """Makes a pull that finds no item, and comes to where it sleeps."""
        self.must(SLEEPS, "^weak_lazy_pull_wait$", lazy.pool)

    def has_item(self, lazy: Lazy) -> None:
        if self.call("^weak_lazy_pull_wait$", lazy.pool) in (SLEEPS, CLOSED, 0):
            raise Unknown("there is no item")

    def gives_back(self, lazy: Lazy) -> None:
        self.call("^weak_lazy_give_back$", lazy.out)

    def closes(self, lazy: Lazy) -> None:
        self.call("^weak_lazy_close$", lazy.pool)

    def only(self, *names: str) -> None:
        """Leaves out the steps at other places: what is left rules out less."""
        self.steps = [step for step in self.steps if step.place in (*names, "")]


def only(threads: list[Thread], *names: str) -> list[Thread]:
    for thread in threads:
        thread.only(*names)
    return threads


def unseen(world: World, bad: bool) -> Threads:
    """A return sees nobody that waits, and a pull that finds no item falls asleep."""
    lazy = Lazy(world)
    waiter = Caller(world, 1)
    waiter.sleeps(lazy)
    giver = Caller(world, 0, after=None if bad else waiter)
    giver.finds("mutex", 0)
    giver.gives_back(lazy)
    return only([giver, waiter], "slot", "waiting")


def seen(world: World, bad: bool) -> Threads:
    """A return sees one that waits and nobody that sleeps, so that it wakes nobody. It tells, and the pull falls asleep."""
    lazy = Lazy(world)
    waiter = Caller(world, 1)
    waiter.sleeps(lazy)
    giver = Caller(world, 0, after=waiter)
    giver.finds("mutex", 0)
    if bad:
        giver.finds("asleep", 0)
    giver.gives_back(lazy)
    return only([giver, waiter], "waiting", "told", "asleep")


def closed(world: World, bad: bool) -> Threads:
    """A close tells, comes to its lock first, and wakes those that sleep by then. A pull falls asleep behind it."""
    lazy = Lazy(world)
    closer = Caller(world, 0)
    closer.closes(lazy)
    waiter = Caller(world, 1)
    waiter.sleeps(lazy)
    if not bad:
        closer = Caller(world, 0, after=waiter)
        closer.finds("mutex", 0)
        closer.closes(lazy)
        return only([closer, waiter], "waiting", "told")
    return only([closer, waiter], "told", "mutex")


def closed_kept(world: World, bad: bool) -> Threads:
    """A return sees an open pool, and a close that then drops what is free finds nothing."""
    lazy = Lazy(world)
    giver = Caller(world, 0)
    giver.gives_back(lazy)
    closer = Caller(world, 1, after=None if bad else giver)
    closer.closes(lazy)
    return only([giver, closer], "slot", "waiting")


def taken_by_close(world: World, bad: bool) -> Threads:
    """A close takes what a return kept. A pull finds that it is gone, doesn't see the close, and falls asleep."""
    lazy = Lazy(world)
    giver = Caller(world, 0)
    giver.gives_back(lazy)
    closer = Caller(world, 2, after=giver)
    closer.closes(lazy)
    waiter = Caller(world, 1)
    waiter.finds("slot", closer.left("slot"))
    if not bad:
        waiter.finds("told", closer.left("told"))
    waiter.sleeps(lazy)
    return only([giver, closer, waiter], "slot", "told")


TESTS = [
    Test("unseen", "one sleeps though an item is free: the return didn't see it waiting", unseen,
         {"x86_64": [(0, "", "fence")]}),
    Test("seen", "one sleeps though an item is free: the return didn't see it asleep", seen,
         {"x86_64": [(0, "told", "order"), (1, "asleep", "order")]}),
    Test("closed_kept", "a closed pool keeps an item", closed_kept, {"x86_64": [(0, "", "fence")]}),
    Test("taken_by_close", "one sleeps though the pool is closed: it saw that the item was gone, and not the close", taken_by_close,
         {"aarch64": [((2, "slot", "acquire"), (2, "", "fence"))]}),
    Test("closed", "one sleeps though the pool is closed", closed, {"x86_64": [(1, "mutex", "order")], "aarch64": [(1, "mutex", "order")]}),
]
