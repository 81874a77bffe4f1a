"""Tests of the Rust crate's `Pool`: places that threads keep, in slots where others may take them."""

from machine import Memory, Unknown
from testing import Test, Threads
from world import Thread, World

NONE = 0xFFFFFFFF
# What a pull answers if all places are out.
REFUSED = (1 << 64) - 1
# The thread that came when all numbers were out, and how many calls it makes before it asks again.
NO_NUMBER = -1
CALLS = 8


class Pool:
    """A pool of the crate, of which each thread came once, so that it has its slot. All its places are out."""

    def __init__(self, world: World, places: int, threads: int):
        self.world = world
        self.fixed = world.call("^weak_fixed_new$", places)
        self.slots = [self.come(thread) for thread in range(threads)]
        self.out = [self.pull(NO_NUMBER) for _ in range(places)]

    def come(self, thread: int) -> int:
        """Lets a thread keep a place, which another one takes and returns. The address of its slot."""
        place = self.pull(thread)
        found = self.changed(thread, place, lambda before, after: before & NONE == NONE and after & NONE == place)
        self.give_back(thread, place)
        self.give_back(NO_NUMBER, self.pull(NO_NUMBER))
        return found

    def word(self, place: int) -> int:
        """The address of the word of a place's page."""
        return self.changed(NO_NUMBER, place, lambda before, after: after - before == 1 << 32 | 1 << place % 32)

    def changed(self, thread: int, place: int, is_it) -> int:
        """Which word a return would change so."""
        memory = self.world.memory.copy()
        is_thread(self.world, memory, thread)
        self.world.machine(memory, {}).run("weak_fixed_give_back", self.fixed, place)
        before = self.world.memory
        words = {at - at % 8 for at, byte in memory.bytes.items() if before.bytes.get(at, 0) != byte}
        (found,) = [at for at in words if is_it(before.read(at, 8), memory.read(at, 8))]
        return found

    def pull(self, thread: int) -> int:
        """Pulls a place before the threads begin."""
        is_thread(self.world, self.world.memory, thread)
        if (place := self.world.call("^weak_fixed_pull$", self.fixed)) == REFUSED:
            raise Unknown("a pull is refused")
        return place

    def give_back(self, thread: int, place: int) -> None:
        """Returns a place before the threads begin."""
        is_thread(self.world, self.world.memory, thread)
        self.world.call("^weak_fixed_give_back$", self.fixed, place)


def is_thread(world: World, memory: Memory, thread: int) -> None:
    """Says which thread's memory this is."""
    code = world.form.code
    known, left = (memory.symbol(code.name(rf"threads{name}.*E$")) for name in ("5KNOWN", "4LEFT"))
    number = world.machine(memory, {}).run("weak_no_number") if thread == NO_NUMBER else thread
    memory.write(known, 8, number)
    memory.write(left, 4, CALLS)


class Keeper(Thread):
    """A thread of a test that calls the crate."""

    def __init__(self, world: World, number: int, after: Thread | None = None):
        super().__init__(world, number, after)
        is_thread(world, self.memory, number)

    def pull(self, pool: Pool, **reads: list[int]) -> int:
        place = self.call("^weak_fixed_pull$", pool.fixed, **reads)
        if place == REFUSED:
            raise Unknown("a pull is refused")
        return place

    def refused(self, pool: Pool, **reads: list[int]) -> None:
        self.must(REFUSED, "^weak_fixed_pull$", pool.fixed, **reads)

    def give_back(self, pool: Pool, place: int) -> None:
        self.call("^weak_fixed_give_back$", pool.fixed, place)


def one_place(world: World, threads: int) -> Pool:
    """A pool of one place, which is out, and the slot of its first thread."""
    pool = Pool(world, 1, threads)
    world.place("slot", pool.slots[0])
    world.make("value")
    return pool


def raided(world: World, bad: bool) -> Threads:
    """One writes at its place and keeps it, and another takes it from there and reads."""
    pool = one_place(world, 2)
    owner = Keeper(world, 0)
    owner.store("value", 1)
    owner.give_back(pool, 0)
    raider = Keeper(world, 1, after=owner)
    raider.pull(pool)
    raider.load("value", 0 if bad else 1)
    return [owner, raider]


def raided_reuse(world: World, bad: bool) -> Threads:
    """One reads at its place and keeps it, and another takes it from there and writes."""
    pool = one_place(world, 2)
    owner = Keeper(world, 0)
    owner.load("value", 2 if bad else 0)
    owner.give_back(pool, 0)
    raider = Keeper(world, 1, after=owner)
    raider.pull(pool)
    raider.store("value", 2)
    return [owner, raider]


def kept_twice(world: World, bad: bool) -> Threads:
    """Its keeper and another take a place from the slot."""
    pool = one_place(world, 2)
    pool.give_back(0, 0)
    owner = Keeper(world, 0)
    owner.pull(pool)
    raider = Keeper(world, 1, after=None if bad else owner)
    if bad:
        raider.pull(pool)
    else:
        raider.refused(pool)
    return [owner, raider]


def two_raiders(world: World, bad: bool) -> Threads:
    """Two others take a place from the slot."""
    pool = one_place(world, 3)
    pool.give_back(0, 0)
    one = Keeper(world, 1)
    one.pull(pool)
    other = Keeper(world, 2, after=None if bad else one)
    if bad:
        other.pull(pool)
    else:
        other.refused(pool)
    return [one, other]


def owner_and_raiders(world: World, bad: bool) -> Threads:
    """Its keeper takes a place and keeps it again, and two others take it then, or one of them and later the other."""
    pool = one_place(world, 3)
    pool.give_back(0, 0)
    owner = Keeper(world, 0)
    owner.give_back(pool, owner.pull(pool))
    one = Keeper(world, 1, after=owner)
    one.pull(pool)
    other = Keeper(world, 2, after=owner if bad else one)
    if bad:
        other.pull(pool)
    else:
        other.refused(pool)
    return [owner, one, other]


def looker(world: World, number: int, after: Thread, pool: Pool, name: str, before: int | None) -> Thread:
    """One that pulls, and is refused if it finds at this place what there was before."""
    one = Keeper(world, number, after=after)
    if before is None:
        one.pull(pool)
    else:
        one.finds(name, before)
        one.refused(pool)
    return one


def two_places(world: World, threads: int) -> tuple[Pool, int]:
    """A pool of two places, of which its first thread keeps one. The other one, which is out."""
    pool = Pool(world, 2, threads)
    kept, other = pool.out
    pool.give_back(0, kept)
    world.place("slot", pool.slots[0])
    return pool, other


def moved_home(world: World, bad: bool) -> Threads:
    """One that keeps a place returns another to the library, then takes the kept one. So one was free at each moment."""
    pool, other = two_places(world, 2)
    world.place("word", pool.word(other))
    owner = Keeper(world, 0)
    before = owner.left("word")
    owner.give_back(pool, other)
    owner.pull(pool)
    return [owner, looker(world, 1, owner, pool, "word", before if bad else None)]


def moved_by_raid(world: World, bad: bool) -> Threads:
    """One that keeps nothing returns a place to the library, then takes what another keeps."""
    pool, other = two_places(world, 2)
    world.place("word", pool.word(other))
    mover = Keeper(world, NO_NUMBER)
    before = mover.left("word")
    mover.give_back(pool, other)
    mover.pull(pool)
    return [mover, looker(world, 1, mover, pool, "word", before if bad else None)]


def moved_by_message(world: World, bad: bool) -> Threads:
    """One keeps a place, and another hears of it and then takes what it kept itself."""
    pool, other = two_places(world, 3)
    world.place("other", pool.slots[1])
    world.make("message")
    keeper = Keeper(world, 1)
    before = keeper.left("other")
    keeper.give_back(pool, other)
    keeper.tell("message", 1)
    owner = Keeper(world, 0, after=keeper)
    owner.hear("message", 1)
    owner.pull(pool)
    return [keeper, owner, looker(world, 2, owner, pool, "other", before if bad else None)]


def refused_both(world: World, bad: bool) -> Threads:
    """One returns x and pulls y; the other returns y and pulls x. Both are refused, though both keep what they returned."""
    x, y = Pool(world, 1, 2), Pool(world, 1, 2)
    world.place("x", x.slots[0])
    world.place("y", y.slots[1])
    one = Keeper(world, 0)
    one.give_back(x, 0)
    one.refused(y)
    other = Keeper(world, 1, after=None if bad else one)
    other.give_back(y, 0)
    if bad:
        other.refused(x)
    else:
        other.pull(x)
    return [one, other]


def heard(world: World, bad: bool) -> Threads:
    """One keeps a place and says so. Another hears of it, and pulls then."""
    pool = one_place(world, 2)
    world.make("message")
    keeper = Keeper(world, 0)
    before = keeper.left("slot")
    keeper.give_back(pool, 0)
    keeper.tell("message", 1)
    listener = Keeper(world, 1, after=keeper)
    listener.hear("message", 1)
    if bad:
        listener.finds("slot", before)
        listener.refused(pool)
    else:
        listener.pull(pool)
    return [keeper, listener]


def made(world: World, bad: bool) -> Threads:
    """One comes first, so that its slot is made, and another looks there."""
    pool = Pool(world, 1, 0)
    pool.give_back(NO_NUMBER, 0)
    scratch = Keeper(world, 0)
    scratch.pull(pool)
    fresh = {at: scratch.memory.read(at, 8) for at in range(pool.fixed, pool.fixed + 512, 8) if world.memory.read(at, 8) == 0}
    (link,) = [at for at, value in fresh.items() if value >= world.memory.next]
    world.place("link", link)
    world.place("slot", fresh[link])
    maker = Keeper(world, 0)
    maker.pull(pool)
    other = Keeper(world, NO_NUMBER, after=maker)
    other.refused(pool)
    if bad:
        other.instead("slot", 0)
    return [maker, other]


ATOMIC = {"aarch64": [(0, "slot", "atomic")], "x86_64": [(0, "slot", "atomic")]}
TESTS = [
    Test("raided", "what was written at a place isn't there for who takes it from its keeper", raided,
         {"aarch64": [(0, "slot", "release"), (1, "slot", "acquire")]}),
    Test("raided_reuse", "who keeps a place reads what another one writes that took it", raided_reuse,
         {"aarch64": [(0, "slot", "release")]}),
    Test("kept_twice", "a place has two holders: its keeper and another", kept_twice, ATOMIC),
    Test("two_raiders", "a place has two holders: two that took it from its keeper", two_raiders, ATOMIC),
    Test("owner_and_raiders", "a place has two holders, after its keeper kept it again", owner_and_raiders),
    Test("moved_home", "a pull is refused although a place was kept or home at each moment", moved_home),
    Test("moved_by_raid", "the same, if another than its keeper takes what was kept", moved_by_raid),
    Test("moved_by_message", "the same, of two that keep places, one after the other", moved_by_message),
    Test("refused_both", "two pulls are refused, each of a place that the other thread kept before", refused_both,
         {"x86_64": [(0, "", "fence")], "aarch64-rcpc": [(0, "", "fence")]}),
    Test("heard", "a pull is refused after it was heard of a return", heard, {"aarch64": [(0, "message", "release")]}),
    Test("made", "a thread's slot is found before it is made", made, {"aarch64": [(0, "link", "release"), (1, "link", "acquire")]}),
]
