"""The program of histories, and the package for Python, beside the model of a cache, on random histories."""
import re
import subprocess
import tempfile
from collections.abc import Iterable, Iterator
from concurrent.futures import ProcessPoolExecutor
from itertools import repeat
from pathlib import Path

from common import products
from common.comparison import Comparison
from histories import generate, package, passes
from histories.generate import Player
from histories.writing import Call

BATCH = 1000
# The calls of a store, by the program, and the steps of passes, by the package.
PLAYERS = {"calls": generate.history, "passes of the package": passes.history}
OTHERWISE = re.compile(r"(\S+):(\d+): .*: wanted (.*), given (.*)")
Answers = Iterable[tuple[Call, str]]


def given_answers(program: Path, text: str) -> dict[int, str]:
    """The answers that aren't those of the text, by line."""
    with tempfile.TemporaryDirectory() as folder:
        Path(folder, "histories.rows").write_text(text, "latin-1")
        done = subprocess.run([program, "histories.rows"], cwd=folder, capture_output=True, text=True, check=False)
    found = {int(it[2]): it[4] for it in map(OTHERWISE.fullmatch, done.stdout.splitlines()) if it}
    calls = sum(line.startswith("  ") for line in text.splitlines())
    if not done.stdout.endswith(f"\n{calls} rows, {len(found)} answered otherwise\n"):
        raise RuntimeError(f"not played: {done.stdout[-500:]} {done.stderr[:500]}")
    return found


def by_program(histories: list[Player]) -> Iterator[tuple[Player, Answers]]:
    """The answers of the program to the calls of each history."""
    otherwise = given_answers(products.program(), "".join(f"{line}\n" for it in histories for line in it.lines()))
    number = 0
    for history in histories:
        number += 1
        yield history, [(call, otherwise.get(number + count, min(call.permitted)))
                        for count, call in enumerate(history.calls, 1)]
        number += len(history.calls)


def by_package(histories: list[passes.PassPlayer]) -> Iterator[tuple[Player, Answers]]:
    return ((history, package.play(history)) for history in histories)


def compare_batch(mode: str, seed: int, option: str, indices: range) -> Comparison:
    comparison = Comparison()
    histories = [PLAYERS[mode](seed, option, index) for index in indices]
    for (history, answers), index in zip(by_package(histories) if mode.endswith("package") else by_program(histories),
                                         indices):
        for count, (call, given) in enumerate(answers, 2):
            comparison.add(call.text.split()[0], call.permitted, given,
                           lambda: "\n".join([f"history {index}", *history.lines()[:count]]))
            if given not in call.permitted or (call.goes_on_by and given.split(" ")[0] != call.goes_on_by):
                # What follows a difference, or another choice than the model's, says nothing more.
                break
    return comparison


def compare(mode: str, seed: int, option: str, count: int, jobs: int | None) -> Comparison:
    comparison = Comparison()
    batches = [range(first, min(first + BATCH, count)) for first in range(0, count, BATCH)]
    with ProcessPoolExecutor(jobs) as pool:
        for found in pool.map(compare_batch, repeat(mode), repeat(seed), repeat(option), batches):
            comparison.merge(found)
    return comparison
