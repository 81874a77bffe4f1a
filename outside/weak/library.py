"""Tests of the library's own text: who holds a place, what lies there, and what a refusal says."""

from testing import Test, Threads
from world import DONE, DROP, Library, Thread, World



def one_item(world: World, handles: int, out: bool = True) -> tuple[Library, int]:
    """A pool of one item. The pool, and what names its place if that is out."""
    pool = Library(world, 1, handles)
    world.place("word", pool.word(0))
    world.make("value")
    return pool, pool.pulled() if out else 0


def handover(world: World, bad: bool) -> Threads:
    """One writes at its place and returns it, and the other pulls it and reads."""
    pool, place = one_item(world, 2)
    giver = Thread(world, 0)
    giver.store("value", 1)
    giver.give_back(pool, place)
    taker = Thread(world, 1, after=giver)
    taker.pull(pool)
    taker.load("value", 0 if bad else 1)
    return [giver, taker]


def home(world: World, bad: bool) -> Threads:
    """The same of the byte by which the proved code moves the place's value in and out."""
    pool, place = one_item(world, 2)
    giver = Thread(world, 0)
    giver.give_back(pool, place)
    # Beside the word's one byte changes from 0 to 1.
    changed = [at for at, byte in giver.memory.bytes.items() if world.memory.bytes.get(at) == 0 and byte == 1]
    (at,) = [at for at in changed if at not in range(world.at("word"), world.at("word") + 8)]
    world.place("home", at, 1)
    giver = Thread(world, 0)
    giver.give_back(pool, place)
    taker = Thread(world, 1, after=giver)
    taker.pull(pool)
    if bad:
        taker.instead("home", 0)
    return [giver, taker]


def reuse(world: World, bad: bool) -> Threads:
    """One reads at its place and returns it, and the other pulls it and writes."""
    pool, place = one_item(world, 2)
    giver = Thread(world, 0)
    giver.load("value", 2 if bad else 0)
    giver.give_back(pool, place)
    taker = Thread(world, 1, after=giver)
    taker.pull(pool)
    taker.store("value", 2)
    return [giver, taker]


def twice(world: World, bad: bool) -> Threads:
    """Two pull the only place."""
    pool, _ = one_item(world, 2, out=False)
    one = Thread(world, 0)
    one.pull(pool)
    other = Thread(world, 1, after=None if bad else one)
    if bad:
        other.pull(pool)
    else:
        other.refused(pool)
    return [one, other]


def passed_on(world: World, bad: bool) -> Threads:
    """One returns its place, a second pulls and returns it, and a third pulls it and reads."""
    pool, place = one_item(world, 3)
    giver = Thread(world, 0)
    giver.store("value", 1)
    giver.give_back(pool, place)
    second = Thread(world, 1, after=giver)
    second.give_back(pool, second.pull(pool))
    third = Thread(world, 2, after=second)
    third.pull(pool)
    third.load("value", 0 if bad else 1)
    return [giver, second, third]


def two_pools(world: World) -> list[tuple[Library, int]]:
    """Two pools of one item, which is out."""
    pools = [Library(world, 1, 4), Library(world, 1, 4)]
    for name, pool in zip("xy", pools):
        world.place(name, pool.word(0))
    return [(pool, pool.pulled()) for pool in pools]


def refused_both(world: World, bad: bool) -> Threads:
    """One returns x and pulls y; the other returns y and pulls x. Both are refused."""
    (x, x_place), (y, y_place) = two_pools(world)
    one = Thread(world, 0)
    one.give_back(x, x_place)
    one.refused(y)
    other = Thread(world, 1, after=None if bad else one)
    other.give_back(y, y_place)
    if bad:
        other.refused(x)
    else:
        other.pull(x)
    return [one, other]


def two_orders(world: World, bad: bool) -> Threads:
    """Two return x and y. Two others pull both: one finds x alone free, and the other y alone."""
    (x, x_place), (y, y_place) = two_pools(world)
    one, other = Thread(world, 0), Thread(world, 1)
    one.give_back(x, x_place)
    other.give_back(y, y_place)
    lookers = [Thread(world, 2, after=one), Thread(world, 3, after=other if bad else None)]
    lookers[0].pull(x)
    lookers[0].refused(y)
    if bad:
        lookers[1].pull(y)
    lookers[1].refused(x)
    return [one, other, *lookers]


def two_pages(world: World) -> tuple[Library, int]:
    """A pool of two pages: a has a free place, and b has none. The pool, and what names a place of b that is out."""
    pool = Library(world, 33, 3)
    world.place("a", pool.word(0))
    world.place("b", pool.word(1))
    free, *_ = [pool.pulled(0) for _ in range(32)]
    last = pool.pulled(1)
    pool.returned(free)
    return pool, last


def look(world: World, number: int, after: Thread, pool: Library, before: int | None) -> Thread:
    """One that pulls at b first. It is refused if it finds there what there was before."""
    looker = Thread(world, number, after=after)
    if before is None:
        looker.pull(pool, 1)
    else:
        looker.finds("b", before)
        looker.refused(pool, 1)
    return looker


def moved(world: World, bad: bool) -> Threads:
    """One returns a place of b, then pulls one of a. So one was free at each moment, and yet another pull is refused."""
    pool, last = two_pages(world)
    mover = Thread(world, 0)
    before = mover.left("b")
    mover.give_back(pool, last)
    mover.pull(pool, 0)
    return [mover, look(world, 1, mover, pool, before if bad else None)]


def moved_by_two(world: World, bad: bool) -> Threads:
    """The same, if a second thread hears of the return and pulls."""
    pool, last = two_pages(world)
    world.make("message")
    giver = Thread(world, 0)
    before = giver.left("b")
    giver.give_back(pool, last)
    giver.tell("message", 1)
    taker = Thread(world, 1, after=giver)
    taker.hear("message", 1)
    taker.pull(pool, 0)
    return [giver, taker, look(world, 2, taker, pool, before if bad else None)]


def last_handle(world: World, bad: bool) -> Threads:
    """One writes and drops its handle; the other drops the last one, which frees the pool, and reads."""
    pool = Library(world, 1, 2)
    world.make("value")
    # The counts of handles: what both drops lower.
    for number, at in enumerate(sorted(counts_of(world, pool, 0) & counts_of(world, pool, 1))):
        world.place(f"count{number}", at)
    first = Thread(world, 0)
    first.store("value", 1)
    first.must(DONE, DROP, pool.handles[0])
    last = Thread(world, 1, after=first)
    last.must(DONE, DROP, pool.handles[1])
    last.load("value", 0 if bad else 1)
    return [first, last]


def counts_of(world: World, pool: Library, handle: int) -> set[int]:
    return {at for kind, at in world.touched(DROP, pool.handles[handle]) if kind.startswith(("stlxr", "dec", "xadd", "sub"))}


TESTS = [
    Test("handover", "what was written at a place before its return isn't there after its pull", handover,
         {"aarch64": [(0, "word", "release"), (1, "word", "acquire")]}),
    Test("home", "a place's value isn't home before its bit says so", home,
         {"aarch64": [(0, "word", "release"), (1, "word", "acquire")]}),
    Test("reuse", "who returned a place reads what its next holder writes", reuse,
         {"aarch64": [(0, "word", "release")]}),
    Test("twice", "a place has two holders", twice, {"aarch64": [(0, "word", "atomic")], "x86_64": [(0, "word", "atomic")]}),
    Test("passed_on", "what was written isn't there after two returns and pulls", passed_on,
         {"aarch64": [(0, "word", "release"), (2, "word", "acquire")]}),
    Test("refused_both", "two pulls are refused, each of a place that the other thread returned before", refused_both,
         {"aarch64": [(0, "y", "sequential"), (0, "y", "acquire")], "x86_64": [(0, "x", "order")]}),
    Test("two_orders", "two pulls see two returns in two orders", two_orders, {}),
    Test("moved", "a pull is refused although a place was free at each moment", moved, {}),
    Test("moved_by_two", "the same, if one thread returns and another pulls", moved_by_two, {}),
    Test("last_handle", "a pool is freed before another thread's last call has ended", last_handle,
         {"aarch64": [(0, "count*", "release"), (1, "count*", "acquire")]}),
]
