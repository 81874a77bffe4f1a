"""Tests of the crate's word `returned`: it notes that the library has no place, so that a pull is
refused without asking that."""

from kept import NO_NUMBER, Keeper, Pool, is_thread
from machine import Unknown
from testing import Test, Threads
from world import World

# What the word is if no place can be found, and if one may be.
NONE, SOME = 0, 1


def full(world: World, name: str = "note") -> Pool:
    """A pool of one place, which is out, and where it notes that: what a refused pull changes so.
    Two threads have slots."""
    pool = Pool(world, 1, 2)
    pool.give_back(NO_NUMBER, 0)
    pool.pull(0)
    before, after = world.memory, world.memory.copy()
    is_thread(world, after, NO_NUMBER)
    world.machine(after, {}).run("weak_fixed_pull", pool.fixed)
    words = range(pool.fixed, before.next, 8)  # a stack lies behind these
    (note,) = [at for at in words if (before.read(at, 8), after.read(at, 8)) == (SOME, NONE)]
    world.place(name, note)
    return pool


def refused_by_note(thread: Keeper, pool: Pool, name: str = "note") -> None:
    """Makes a pull that finds the note, and so leaves no mark."""
    known = len(thread.steps)
    thread.finds(name, NONE)
    thread.refused(pool)
    if any(step.written is not None for step in thread.steps[known:]):
        raise Unknown("a pull that is refused by a note writes")


def noted(world: World, bad: bool) -> Threads:
    """One looks, finds no place and notes that. Another returns it, finds no mark, and pulls."""
    pool = full(world)
    world.place("word", pool.word(0))
    giver = Keeper(world, NO_NUMBER)
    giver.give_back(pool, 0)
    looker = Keeper(world, 1, after=None if bad else giver)
    if bad:
        looker.refused(pool)
        refused_by_note(giver, pool)
    else:
        looker.pull(pool)
    return [looker, giver]


def noted_late(world: World, bad: bool) -> Threads:
    """The same, if the other finds the mark, and says that a place was returned before the note."""
    pool = full(world)
    looker = Keeper(world, 1)
    looker.refused(pool)
    giver = Keeper(world, NO_NUMBER, after=looker)
    if bad:
        giver.finds("note", next(step.written for step in looker.steps if step.written))
    giver.give_back(pool, 0)
    if bad:
        refused_by_note(giver, pool)
    return [looker, giver]


def noted_both(world: World, bad: bool) -> Threads:
    """Two pools note that they have no place. One returns x and pulls y; the other returns y and
    pulls x. Both are refused."""
    x, y = (full(world, name) for name in "xy")
    for pool in (x, y):
        is_thread(world, world.memory, NO_NUMBER)
        world.call("^weak_fixed_pull$", pool.fixed)
    one = Keeper(world, NO_NUMBER)
    one.give_back(x, 0)
    refused_by_note(one, y, "y")
    other = Keeper(world, NO_NUMBER, after=None if bad else one)
    other.give_back(y, 0)
    if bad:
        refused_by_note(other, x, "x")
    else:
        other.pull(x)
    return [one, other]


BOTH = ("aarch64", "x86_64")
TESTS = [
    Test(
        "noted", "a pull is refused by a note although a place is free: its return saw no mark",
        noted, {"aarch64": [(0, "note", "release")], "x86_64": [(0, "note", "order")]},
    ),
    Test(
        "noted_late", "a pull is refused by a note that came after a return said that one is free",
        noted_late, {name: [(0, "note", "atomic")] for name in BOTH},
    ),
    Test(
        "noted_both", "two pulls are refused by notes, each of a place that the other one returned",
        noted_both, {name: [((0, "x", "order"), (0, "", "fence"))] for name in BOTH},
    ),
]
