"""Tests of the orders that the Rust sources name, by RC11: what they promise whatever the processor. The proved code's are SeqCst."""

import re
from collections.abc import Iterator
from dataclasses import dataclass
from pathlib import Path

from testing import Question

NAMES = {"Relaxed": "relaxed", "Acquire": "acquire", "Release": "release", "AcqRel": "acq_rel", "SeqCst": "seq_cst"}
FENCE = "atomic_thread_fence(memory_order_seq_cst);"


class Source:
    """The sources of the crate."""

    def __init__(self, folder: Path):
        self.folder = folder

    def bodies(self, file: str, function: str) -> str:
        """The texts of the functions of this name, each up to the next one."""
        found = re.findall(rf"\bfn {function}\b.*?(?=\n    (?:pub.*)?fn |\Z)", (self.folder / file).read_text(), re.DOTALL)
        return "\n".join(found)

    def order(self, file: str, function: str, call: str) -> str:
        """The order that a function names for its first such call: of one that may fail, if it doesn't."""
        found = re.search(rf"\.{call}\([^;]*?\b({'|'.join(NAMES)})\b", self.bodies(file, function))
        if not found:
            raise SystemExit(f"{file} has no {call} in {function}")
        return f"memory_order_{NAMES[found[1]]}"

    def fence(self, file: str, function: str) -> str:
        """The fence of a function, if it has one."""
        return FENCE if "fence(SeqCst)" in self.bodies(file, function) else ""


SC = "memory_order_seq_cst"
RELEASE = "memory_order_release"
ACQUIRE = "memory_order_acquire"


def load(place: str, order: str) -> str:
    return f"atomic_load_explicit({place},{order})"


def store(place: str, value: int, order: str) -> str:
    return f"atomic_store_explicit({place},{value},{order});"


def add(place: str, order: str) -> str:
    return f"atomic_fetch_add_explicit({place},1,{order})"


@dataclass(frozen=True)
class Program:
    """A program in C, by its threads' places and steps, with the fault, and what is weaker where it has to be seen."""

    name: str
    breaks: str
    begin: str
    threads: list[tuple[str, str]]
    fault: str
    weaker: list[tuple[str, str]]

    def text(self) -> str:
        rows = []
        for at, (places, steps) in enumerate(self.threads):
            kinds = ", ".join(f"{'int' if place in ('v', 'e', 'f') else 'atomic_int'}* {place}" for place in places.split())
            rows.append(f"P{at}({kinds}) {{ {steps} }}")
        return f"C {self.name}\n{{ {self.begin} }}\n" + "\n".join(rows) + f"\nexists ({self.fault})\n"


def programs(source: Source) -> Iterator[Program]:
    """The programs, by the orders that the sources name. `s` is a slot, 1 if a place is kept there; `w` is a word of the library."""
    seen, kept = source.order("places/kept.rs", "load", "load"), source.order("places/kept.rs", "keep", "store")
    swap, raid = source.order("places/kept.rs", "take_own", "swap"), source.order("places/kept.rs", "take", "compare_exchange")
    fence = source.fence("places/fixed.rs", "look")
    take = f"int r1=atomic_exchange_explicit(s,2,{swap});"
    took = f"int r1=atomic_compare_exchange_strong_explicit(s,e,2,{raid},{seen});"
    look = f"{fence} int r0={load('s', seen)}; int r1={load('w', SC)}; int r2={load('s', seen)};"
    yield Program("raided", "what was written at a place isn't there for who takes it from its keeper", "[e]=1;",
                  [("v s", f"*v=1; {store('s', 1, kept)}"), ("v s e", f"{took} int r0=7; if (r1==1) {{ r0=*v; }}")],
                  "1:r1=1 /\\ 1:r0=0", [(kept, "memory_order_relaxed"), (f"2,{raid}", "2,memory_order_relaxed")])
    yield Program("moved_home", "a pull is refused although a place was kept or home at each moment", "[s]=1;",
                  [("s w", f"int r0={add('w', SC)}; {take}"), ("s w", look)],
                  "0:r1=1 /\\ 1:r0=2 /\\ 1:r1=0 /\\ 1:r2=2", [(f"2,{swap}", f"2,{ACQUIRE}")])
    yield Program("moved_by_raid", "the same, if another than its keeper takes what was kept", "[s]=1; [e]=1;",
                  [("s w e", f"int r0={add('w', SC)}; {took}"), ("s w", look)],
                  "0:r1=1 /\\ 1:r0=2 /\\ 1:r1=0 /\\ 1:r2=2", [(f"2,{raid}", f"2,{ACQUIRE}")])
    looks = f"{fence} int r0={load('s', seen)}; int r1={load('q', seen)}; int r2={load('s', seen)}; int r3={load('q', seen)};"
    yield Program("moved_by_message", "the same, of two that keep places, one after the other", "[s]=1;",
                  [("q m", f"{store('q', 1, kept)} {store('m', 1, RELEASE)}"),
                   ("s m", f"int r0={load('m', ACQUIRE)}; int r1=0; if (r0==1) {{ r1=atomic_exchange_explicit(s,2,{swap}); }}"),
                   ("s q", looks)],
                  "1:r0=1 /\\ 1:r1=1 /\\ 2:r0=2 /\\ 2:r1=0 /\\ 2:r2=2 /\\ 2:r3=0", [(f"2,{swap}", f"2,{ACQUIRE}")])
    yield Program("refused_both", "two pulls are refused, each of a place that the other thread kept before", "",
                  [("s q", f"{store('s', 1, kept)} {fence} int r0={load('q', seen)};"),
                   ("s q", f"{store('q', 1, kept)} {fence} int r0={load('s', seen)};")],
                  "0:r0=0 /\\ 1:r0=0", [(FENCE, "")])
    yield from noted(source)
    yield from waiting(source, kept, seen)
    set_, got = source.order("once.rs", "set", "compare_exchange"), source.order("once.rs", "get", "load")
    yield Program("made", "a thread's slot, or a pool's part, is found before it is made", "[e]=0;",
                  [("v s e", f"*v=1; int r0=atomic_compare_exchange_strong_explicit(s,e,1,{set_},{ACQUIRE});"),
                   ("v s", f"int r1={load('s', got)}; int r0=7; if (r1==1) {{ r0=*v; }}")],
                  "1:r1=1 /\\ 1:r0=0", [(f"1,{set_}", "1,memory_order_relaxed"), (f"(s,{got})", "(s,memory_order_relaxed)")])


def noted(source: Source) -> Iterator[Program]:
    """Those of the word `returned`, which is `n`: 0 if no place can be found, 1 if one may be, 2 and
    3 the marks of a look and of a return, 4 another mark."""
    file = "library.rs"
    mark, note = (source.order(file, "pull_again", call) for call in ("store", "compare_exchange"))
    told, said = (source.order(file, "say_returned", call) for call in ("store", "compare_exchange"))
    known, quick = source.order(file, "give_back", "load"), source.order(file, "may_have_some", "load")

    def change(number: int, place: str, expected: str, to: int, order: str) -> str:
        words = f"{place},{expected},{to},{order},{order}"
        return f"int r{number}=atomic_compare_exchange_strong_explicit({words});"

    look = f"{store('n', 2, mark)} int r0={load('w', SC)}; {change(1, 'n', 'e', 0, note)}"
    give = f"int r0={add('w', SC)}; int r1={load('n', known)};"
    say = f"{store('n', 3, told)} {change(2, 'n', 'f', 1, said)}"
    weak_mark = (f"n,2,{mark}", f"n,2,{RELEASE}")
    weak_load = (f"r1={load('n', known)}", f"r1={load('n', ACQUIRE)}")
    yield Program("noted", "a pull is refused by a note although a place is free: its return saw no mark",
                  "[n]=1; [e]=2;", [("w n e", look), ("w n", f"{give} int r2={load('n', quick)};")],
                  "0:r0=0 /\\ 0:r1=1 /\\ 1:r1=1 /\\ 1:r2=0", [weak_mark, weak_load])
    yield Program("noted_past_a_mark", "the same: it saw another mark, and a later look's replaced its own",
                  "[n]=4; [e]=2; [f]=3;", [("w n e", look), ("w n f", f"{give} {say}")],
                  "0:r0=0 /\\ 0:r1=1 /\\ 1:r1=4 /\\ 1:r2=0", [weak_mark])
    one, other = (f"{store(here, 3, told)} {change(0, here, mine, 1, said)} int r1={load(there, quick)};"
                  for here, there, mine in (("x", "y", "e"), ("y", "x", "f")))
    yield Program("noted_both", "two pulls are refused by notes, each of a place that the other one returned",
                  "[e]=3; [f]=3;", [("x y e", one), ("x y f", other)],
                  "0:r0=1 /\\ 0:r1=0 /\\ 1:r0=1 /\\ 1:r1=0", [(load("x", quick), load("x", ACQUIRE))])


def waiting(source: Source, kept: str, seen: str) -> Iterator[Program]:
    """Those of a lazy pool's waiters. `n` counts who waits, `t` what was told, `a` who sleeps."""
    file, signs = "pools/lazy/waiters.rs", "pools/lazy/signs.rs"
    wait, tell = source.fence(signs, "enter"), source.fence(signs, "load_after")
    counts, told = source.order(signs, "enter", "fetch_add"), source.order(file, "wake", "fetch_add")
    waits, again = source.order(signs, "load", "load"), source.order(file, "sleep", "load")
    sleeps, is_due = source.order(file, "sleep", "fetch_add"), source.order(file, "wake", "load")
    yield Program("unseen", "one sleeps though an item is free: the return didn't see it waiting", "",
                  [("s n", f"{store('s', 1, kept)} {tell} int r0={load('n', waits)};"),
                   ("s n", f"int r1={add('n', counts)}; {wait} int r0={load('s', seen)};")],
                  "0:r0=0 /\\ 1:r0=0", [(f"{kept}); {FENCE}", f"{kept});"), (f"{counts}); {FENCE}", f"{counts});")])
    yield Program("seen", "one sleeps though an item is free: the return didn't see it asleep", "",
                  [("t a", f"int r1={add('t', told)}; int r0={load('a', is_due)};"),
                   ("t a", f"int r1={add('a', sleeps)}; int r0={load('t', again)};")],
                  "0:r0=0 /\\ 1:r0=0", [(load("a", is_due), load("a", ACQUIRE)), (load("t", again), load("t", ACQUIRE))])


def questions(folder: Path) -> Iterator[Question]:
    """What is asked of the sources' orders."""
    for program in programs(Source(folder)):
        name = f"{program.name}, the sources' orders"
        yield Question(name, program.breaks, "rc11.cat", program.text(), "never")
        for strong, weak in program.weaker:
            if strong not in program.text():
                yield Question(name, f"it has no {strong}", "", "", "a test")
                continue
            said = f"with {weak or 'nothing'} for {strong}"
            yield Question(f"{name}, {said}", "the fault is seen", "rc11.cat", program.text().replace(strong, weak), "possible")
