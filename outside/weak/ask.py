"""Makes the tests of order and asks herd7: FOLDER has the compiled crate's texts, and gets the tests. Usage: ask.py FOLDER [NAME..]"""

import sys
from concurrent.futures import ThreadPoolExecutor
from pathlib import Path

sys.dont_write_bytecode = True

import kept  # noqa: E402
import library  # noqa: E402
import noted  # noqa: E402
import orders  # noqa: E402
import waiting  # noqa: E402
from machine import Unknown  # noqa: E402
from testing import Question, Test, put, questions  # noqa: E402
from world import Form, texts  # noqa: E402

ASSEMBLY = Path(__file__).resolve().parent.parent / "rust" / "assembly"


# How many tests are asked at once.
JOBS = 2
# The texts of the compiled crate that are there, beside the proved code's.
CRATE = {"x86_64": "x86_64.s", "aarch64": "aarch64.s", "aarch64-lse": "aarch64-lse.s", "aarch64-rcpc": "aarch64-rcpc.s"}


def main() -> None:
    folder, names = Path(sys.argv[1]), sys.argv[2:]
    proved = texts(ASSEMBLY, {"x86_64": "x86_64.s", "aarch64": "aarch64.s"})
    crate = texts(folder, {name: file for name, file in CRATE.items() if (folder / file).exists()})
    todo = [(test, form) for form in proved for test in library.TESTS] + [(test, form) for form in crate for test in [*kept.TESTS, *noted.TESTS, *waiting.TESTS]]
    passed = failed = 0
    with ThreadPoolExecutor(JOBS) as pool:
        asked = [one for test, form in todo if not names or test.name in names for one in asked_of(test, form)]
        asked += [one for one in orders.questions(folder / "crate" / "src") if not names or one.name.split(",")[0] in names]
        for is_right, said in pool.map(lambda question: put(question, folder), asked):
            passed, failed = passed + is_right, failed + (not is_right)
            print(said, flush=True)
    print(f"{passed} passed, {failed} failed")
    raise SystemExit(failed > 0 or passed == 0)


def asked_of(test: Test, form: Form) -> list[Question]:
    """What is asked of a test in this form. What can't be made is a question that fails."""
    try:
        return list(questions(test, form))
    except Unknown as error:
        return [Question(f"{test.name}, {form.name}", str(error), "", "", "a test")]


if __name__ == "__main__":
    main()
