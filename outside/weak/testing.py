"""What a test of order is, and how each is run: the fault, a run that must be possible, and weaker steps that show the fault."""

from collections.abc import Callable, Iterator
from dataclasses import dataclass, field
from pathlib import Path

from litmus import ask, text, weaker
from machine import Step, Unknown
from world import Form, Thread, World

Threads = list[Thread]
# Loads that a store belongs to.
PAIRS = ("ldaxr", "ldxr")
# A step that is made weaker: the thread's number, the place, and what is left out. A control has one or several.
Weaker = tuple[int, str, str]
Control = Weaker | tuple[Weaker, ...]


@dataclass(frozen=True)
class Test:
    """A fault that mustn't be found: what each thread finds in it. `build` makes the threads, with the fault or without."""

    name: str
    breaks: str
    build: Callable[[World, bool], Threads]
    # For each form or processor, steps that show the fault if they are weaker, one control at a time.
    weaker: dict[str, list[Control]] = field(default_factory=dict)
    # Whether the fault may be found: then the test says what isn't promised.
    expected: str = "never"


@dataclass(frozen=True)
class Question:
    """A litmus test, and the answer that it has to have."""

    name: str
    said: str
    cat: str
    content: str
    expected: str


def lean(steps: list[Step]) -> list[Step]:
    """The steps but for a load right before another one of its place, since a load only rules runs out, and for a second fence."""

    def needless(step: Step, then: Step) -> bool:
        if step.word == then.word and not step.place + then.place:
            return True
        return step.place == then.place != "" and None not in (step.read, then.read) and step.written is None and step.word not in PAIRS

    return [step for step, then in zip(steps, [*steps[1:], Step("")]) if not needless(step, then)]


def weakened(form: Form, steps: list[list[Step]], control: Control) -> tuple[list[list[Step]], str]:
    """The steps with those of a control weaker, and what to say of it."""
    said = []
    for thread, place, what in control if isinstance(control[0], tuple) else [control]:
        before, steps = steps, weaker(form.model, steps, thread, place, what)
        if steps == before:
            raise Unknown(f"{form.name}: thread {thread} has no {what} at {place}")
        said.append(f"thread {thread} without {what}{place and ' at '}{place}")
    return steps, ", ".join(said)


def questions(test: Test, form: Form) -> Iterator[Question]:
    """What is asked of a test in this form."""

    def one(kind: str, said: str, expected: str, made: World, steps: list) -> Question:
        name = f"{test.name}{kind}, {form.name}"
        content = text(form.model, "".join(c if c.isalnum() else "_" for c in name), made.first(), steps)
        return Question(name, said, form.model.cat, content, expected)

    world = World(form)
    steps = [lean(thread.steps) for thread in test.build(world, True)]
    yield one("", test.breaks, test.expected, world, steps)
    for control in test.weaker.get(form.name, test.weaker.get(form.processor, [])):
        changed, said = weakened(form, steps, control)
        yield one(f" ({said})", "the fault is seen", "possible", world, changed)
    world = World(form)
    if test.expected == "never":
        steps = [lean(thread.steps) for thread in test.build(world, False)]
        yield one(" (may be)", "a run that must be possible", "possible", world, steps)


def put(question: Question, folder: Path) -> tuple[bool, str]:
    """Asks herd7. Whether the answer is as expected, and what to say."""
    if not question.content:
        return False, f"FAILED: {question.name}: {question.said}"
    path = folder / ("".join(c if c.isalnum() else "_" for c in question.name) + ".litmus")
    path.write_text(question.content)
    answer, output = ask(question.cat, str(path))
    answer = {"Never": "never", "Sometimes": "possible", "Always": "possible"}.get(answer, answer)
    if answer == question.expected:
        return True, f"ok: {question.name}: {answer}: {question.said}"
    return False, f"FAILED: {question.name}: {answer}, not {question.expected}: {question.said}\n{question.content}{output}"
