#!/usr/bin/env python3
"""Measures these pools and the original's at the same work, and prints tables of their times and memory.

usage: compare.py ORIGINAL [ROUNDS]

ORIGINAL is the folder of the sources of lockfree-object-pool 0.1.6. Each round does each task once with the one program and
once with the other, in turns; a task's time is the least of its rounds (7, unless ROUNDS says another number).

The last table is the one that `pictures.py` draws `docs/speed.svg` from, where it stands in README.md.
"""

import os
import re
import subprocess
import sys
from pathlib import Path
from typing import NamedTuple, Optional

HERE = Path(__file__).resolve().parent
ROOT = HERE.parent.parent
OURS = ROOT / "crates" / "test_original"
LINE = re.compile(r"(.*): (\d+) in (\d+) ns, (\d+) kB\n")

# The original has no fixed and no lazy pool: its linear pool does the same work beside both. Beside the lazy pool's pulls that wait
# stands a vector behind a mutex, with a condition variable.
KINDS = ["linear", "spin_lock", "mutex", "fixed", "fixed_near", "lazy", "lazy_wait"]


class Work(NamedTuple):
    """What is done on each kind of pool, how often, and by how many threads."""

    name: str
    words: str
    linear_turns: int
    other_turns: int
    threads: int = 1

    def turns(self, kind: str) -> int:
        return self.other_turns if kind in ("spin_lock", "mutex", "lazy_wait") else self.linear_turns

    def task(self, kind: str) -> str:
        return f"{kind} {self.words} {self.turns(kind)}"


# Where items are held, the original's linear pool passes by each full page: those tasks have fewer turns.
WORKS = [
    Work("pull and drop", "pull 0", 1_000_000, 1_000_000),
    Work("owned pull and drop", "pull_owned 0", 1_000_000, 1_000_000),
    Work("32 held", "pull 32", 1_000_000, 1_000_000),
    Work("1,024 held", "pull 1024", 200_000, 1_000_000),
    Work("32,768 held", "pull 32768", 10_000, 1_000_000),
    Work("1,024 owned held", "pull_owned 1024", 200_000, 1_000_000),
    Work("2 threads", "share 2 0", 1_000_000, 1_000_000, threads=2),
    Work("4 threads", "share 4 0", 1_000_000, 1_000_000, threads=4),
    Work("1,000 full pages, 4 threads", "share 4 32000", 5_000, 200_000, threads=4),
]
HOLD = Work("262,144 pulled and held", "hold", 262_144, 262_144)
HOLD_NOTHING = Work("nothing held", "hold", 0, 0)
# What the picture shows: a pull and drop while so many items are held.
HELD = [0, 1, 8, 32, 128, 1_024, 8_192, 32_768]
# Threads that wait for few items: of the lazy pool, and of the vector behind a mutex.
WAITS = [
    Work("1 item, 8 threads", "wait 8 1", 50_000, 50_000, threads=8),
    Work("3 items, 8 threads", "wait 8 3", 50_000, 50_000, threads=8),
]
# Threads with a worker of the pool each, which keeps one item. The original's linear pool has none: its threads pull and drop.
WORKERS = [Work(f"{threads} worker{'s' * (threads > 1)}", f"worker {threads}", 1_000_000, 1_000_000, threads=threads) for threads in (1, 4)]
WORKER_KINDS = ["linear", "fixed", "lazy"]
# What the original can't do: a pull that is refused, of a fixed pool whose 65,536 items are all held.
REFUSE = Work("refused pull of 65,536 items", "refuse", 10_000, 10_000)


class Run(NamedTuple):
    """What one run of a program printed."""

    total: int
    nanoseconds: int
    kilobytes: int


class Best(NamedTuple):
    """The least time and memory of a task's runs so far."""

    nanoseconds: int
    kilobytes: int


def build(original: Path) -> list[Path]:
    """Builds both programs: these pools' first, then the original's."""
    subprocess.run(["rt", "run"], cwd=OURS, stdin=subprocess.DEVNULL, stdout=subprocess.DEVNULL, check=True)
    link = HERE / "original"
    link.unlink(missing_ok=True)
    link.symlink_to(original.resolve(), target_is_directory=True)
    command = ["cargo", "build", "--release", "--offline", "--quiet"]
    settings = {"CARGO_TARGET_DIR": str(HERE / "target"), "RUSTFLAGS": "-A warnings"}
    try:
        subprocess.run(command, cwd=HERE, env={**os.environ, **settings}, check=True)
    finally:
        link.unlink()
    return [OURS / "out" / "test_original", HERE / "target" / "release" / "bench"]


def pin(threads: int) -> None:
    """Keeps a process to as many processors as it has threads, the last ones that there are."""
    processors = sorted(os.sched_getaffinity(0))
    os.sched_setaffinity(0, processors[-threads:])


def run(program: Path, task: str, threads: int) -> Run:
    """Runs a task in a new process."""
    line = subprocess.run(
        [program, *task.split()],
        stdout=subprocess.PIPE,
        check=True,
        text=True,
        preexec_fn=lambda: pin(threads),
    ).stdout
    read = LINE.fullmatch(line)
    if read is None or read[1] != task:
        raise SystemExit(f"{program} {task}: {line!r}")
    return Run(int(read[2]), int(read[3]), int(read[4]))


def better(best: Optional[Best], one: Run) -> Best:
    """The least of what was measured."""
    if best is None:
        return Best(one.nanoseconds, one.kilobytes)
    return Best(min(best.nanoseconds, one.nanoseconds), min(best.kilobytes, one.kilobytes))


def measure(programs: list[Path], tasks: dict[str, int], rounds: int) -> dict[str, list[Best]]:
    """The best of each task by each program. Which program goes first changes from round to round."""
    bests: dict[str, list[Optional[Best]]] = {task: [None, None] for task in tasks}
    for number in range(rounds):
        for task, threads in tasks.items():
            totals = set()
            for at in [0, 1] if number % 2 == 0 else [1, 0]:
                one = run(programs[at], task, threads)
                totals.add(one.total)
                bests[task][at] = better(bests[task][at], one)
            if len(totals) != 1:
                raise SystemExit(f"{task}: the programs saw different values")
        print(f"round {number + 1} of {rounds}", file=sys.stderr)
    return bests


def drawn(held: int) -> Work:
    """A pull and drop while so many items are held."""
    return Work(f"{held:,} held", f"pull {held}", 10_000 if held > 2_000 else 200_000, 1_000_000)


def row(cells: list[str]) -> None:
    print(f"| {' | '.join(cells)} |")


def times(bests: dict[str, list[Best]]) -> None:
    """Prints nanoseconds a turn, and their ratio."""
    row(["Work", "Pool", "Here, ns", "Original, ns", "Ratio"])
    row(["---"] * 5)
    rows = [(work, kind) for work in [*WORKS, HOLD] for kind in KINDS]
    rows += [(work, kind) for work in WORKERS for kind in WORKER_KINDS]
    for work, kind in rows:
        here, there = [best.nanoseconds / work.turns(kind) for best in bests[work.task(kind)]]
        row([work.name, kind, f"{here:,.1f}", f"{there:,.1f}", f"{here / there:.2f}"])


def refusals(program: Path, rounds: int) -> None:
    """Prints nanoseconds a refused pull of the fixed pool."""
    task = REFUSE.task("fixed")
    best = min(run(program, task, REFUSE.threads).nanoseconds for _ in range(rounds))
    print(f"\n{REFUSE.name}: {best / REFUSE.turns('fixed'):,.1f} ns")


def waits(bests: dict[str, list[Best]]) -> None:
    """Prints how many turns a second all threads together have that wait for few items."""
    print()
    row(["Turns a second", "Lazy pool", "Mutex and condition variable", "Ratio"])
    row(["---"] * 4)
    for work in WAITS:
        turns = work.threads * work.turns("lazy_wait")
        here, there = [turns * 1e9 / best.nanoseconds for best in bests[work.task("lazy_wait")]]
        row([work.name, f"{here:,.0f}", f"{there:,.0f}", f"{here / there:.2f}"])


def memory(bests: dict[str, list[Best]]) -> None:
    """Prints bytes an item that is held, its reusable with it, and their ratio."""
    print()
    row([HOLD.name, "Here, bytes an item", "Original, bytes an item", "Ratio"])
    row(["---"] * 4)
    for kind in KINDS:
        full, empty = bests[HOLD.task(kind)], bests[HOLD_NOTHING.task(kind)]
        kilobytes = [a.kilobytes - b.kilobytes for a, b in zip(full, empty)]
        here, there = [1024 * number / HOLD.turns(kind) for number in kilobytes]
        row([kind, f"{here:.1f}", f"{there:.1f}", f"{here / there:.2f}"])


def curves(bests: dict[str, list[Best]]) -> None:
    """Prints what is drawn: the fixed and the linear pool, and the original's linear pool, measured in the same rounds."""
    works = [drawn(held) for held in HELD]
    print()
    row(["Nanoseconds by items held", *[f"{held:,}" for held in HELD]])
    row(["---", *["---:"] * len(HELD)])
    for name, kind, program in [
        ("fixed pool", "fixed", 0),
        ("linear pool", "linear", 0),
        ("lockfree-object-pool, linear", "linear", 1),
    ]:
        figures = [bests[work.task(kind)][program].nanoseconds / work.turns(kind) for work in works]
        row([name, *[f"{figure:,.1f}" for figure in figures]])


def main() -> None:
    if len(sys.argv) not in (2, 3):
        raise SystemExit(__doc__)
    rounds = int(sys.argv[2]) if len(sys.argv) == 3 else 7
    if rounds < 1:
        raise SystemExit(__doc__)
    works = [*WORKS, HOLD, HOLD_NOTHING]
    tasks = {work.task(kind): work.threads for work in works for kind in KINDS}
    tasks |= {work.task(kind): work.threads for work in WORKERS for kind in WORKER_KINDS}
    tasks |= {work.task("lazy_wait"): work.threads for work in WAITS}
    tasks |= {drawn(held).task(kind): 1 for held in HELD for kind in ("linear", "fixed")}
    programs = build(Path(sys.argv[1]))
    bests = measure(programs, tasks, rounds)
    times(bests)
    waits(bests)
    memory(bests)
    refusals(programs[0], rounds)
    curves(bests)


if __name__ == "__main__":
    main()
