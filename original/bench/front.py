#!/usr/bin/env python3
"""Measures what the front page shows, in one run: both pools of this repository that it names, two of the crate in outside/rust, and
the original's.

usage: front.py ORIGINAL [ROUNDS]

ORIGINAL is as for `compare.py`. It prints two tables, from which `pictures.py` draws `docs/speed.svg` and `docs/threads.svg` where they
stand in README.md, and the table of the front page. A round does each task once, in a new process. There are 7 rounds, unless ROUNDS
says another number. One thread's figure is the least of all rounds; several threads have the least one and the middle one.
"""

import statistics
import sys
from pathlib import Path
from typing import NamedTuple

from compare import HELD, Work, build, drawn, row, run

# How many threads pull and drop beside each other, each so often that they run beside each other for most of the time.
THREADS = [2, 4]
SHARED_TURNS = 1_000_000


class Pool(NamedTuple):
    """A pool: its name, its kind for the programs, and which of the two measures it."""

    name: str
    kind: str
    program: int


FIXED = Pool("fixed pool", "fixed", 0)
NEAR = Pool("fixed pool by `pull_near`", "fixed_near", 0)
LINEAR = Pool("linear pool", "linear", 0)
DROP_IN = Pool("`kundratu-pool`, `LinearObjectPool`", "drop_in", 1)
CRATE = Pool("`kundratu-pool`, `Pool`", "pool", 1)
ORIGINAL = Pool("`lockfree-object-pool`, linear", "linear", 1)
CURVES = [FIXED, LINEAR, CRATE, DROP_IN, ORIGINAL]
BARS = [FIXED, NEAR, LINEAR, CRATE, DROP_IN, ORIGINAL]


def turns(pool: Pool, work: Work) -> int:
    """How often a pool does a work: the original's linear pool passes by each full page."""
    return work.linear_turns if pool == ORIGINAL else work.other_turns


def shared(threads: int) -> Work:
    return Work(f"{threads} threads", f"share {threads} 0", SHARED_TURNS, SHARED_TURNS, threads)


def measure(programs: list[Path], rounds: int) -> dict[tuple[Pool, Work], list[float]]:
    """Nanoseconds a turn of each round, of each pool at each work."""
    tasks = [(pool, drawn(held)) for held in HELD for pool in CURVES]
    tasks += [(pool, shared(threads)) for threads in THREADS for pool in BARS]
    times: dict[tuple[Pool, Work], list[float]] = {task: [] for task in tasks}
    for _ in range(rounds):
        for pool, work in tasks:
            count = turns(pool, work)
            one = run(programs[pool.program], f"{pool.kind} {work.words} {count}", work.threads)
            times[pool, work].append(one.nanoseconds / count)
    return times


def main() -> None:
    if len(sys.argv) not in (2, 3):
        raise SystemExit(__doc__)
    rounds = int(sys.argv[2]) if len(sys.argv) == 3 else 7
    times = measure(build(Path(sys.argv[1])), rounds)
    least = {task: min(each) for task, each in times.items()}
    middle = {task: statistics.median(each) for task, each in times.items()}
    row(["Nanoseconds by items held", *[f"{held:,}" for held in HELD]])
    row(["---", *["---:"] * len(HELD)])
    for pool in CURVES:
        row([pool.name, *[f"{least[pool, drawn(held)]:,.1f}" for held in HELD]])
    print()
    row(["Nanoseconds by threads", "1", *[str(threads) for threads in THREADS]])
    row(["---", *["---:"] * (1 + len(THREADS))])
    for pool in BARS:
        alone = f"{least[pool, drawn(0)]:.1f}" if pool != NEAR else ""
        row([pool.name, alone, *[f"{least[pool, shared(n)]:.0f}, {middle[pool, shared(n)]:.0f}" for n in THREADS]])
    print()
    row(["Items held, threads", *[pool.name for pool in CURVES]])
    row(["---", *["---:"] * len(CURVES)])
    for held in (0, 1_024, 32_768):
        name = f"{held:,}" if held else "none"
        row([f"{name}, one thread", *[f"{least[pool, drawn(held)]:,.0f}" for pool in CURVES]])
    row(["none, four threads", *[f"{middle[pool, shared(4)]:,.0f}" for pool in CURVES]])


if __name__ == "__main__":
    main()
