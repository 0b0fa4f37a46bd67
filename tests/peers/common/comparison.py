"""Counts of answers that are as a model has them, and of each kind of difference the shortest input."""
import collections
from collections.abc import Callable, Collection
from typing import Any


class Comparison:
    def __init__(self) -> None:
        self.agree: collections.Counter[str] = collections.Counter()
        self.differ: collections.Counter[str] = collections.Counter()
        self.malformed: collections.Counter[str] = collections.Counter()
        self.shortest: dict[tuple[str, str, str], str] = {}

    def add(self, call: str, permitted: Collection[Any] | None, given: Any, shown: Callable[[], str]) -> None:
        """Counts an answer. `permitted` is `None` if the input is malformed and the standard has no rule for that."""
        if permitted is None:
            self.malformed[call] += 1
        elif given in permitted:
            self.agree[call] += 1
        else:
            self.differ[call] += 1
            key, text = (call, str(given), str(sorted(permitted, key=str))), shown()
            if key not in self.shortest or len(text) < len(self.shortest[key]):
                self.shortest[key] = text

    def merge(self, other: "Comparison") -> None:
        """Adds what another one counted."""
        self.agree.update(other.agree)
        self.differ.update(other.differ)
        self.malformed.update(other.malformed)
        for key, text in other.shortest.items():
            self.shortest[key] = min(self.shortest.get(key, text), text, key=len)

    @property
    def differences(self) -> int:
        return self.differ.total()

    def rows(self) -> list[list[object]]:
        """A row for each call: how many answers agree, differ, and have no rule."""
        calls = dict.fromkeys([*self.agree, *self.differ, *self.malformed])
        return [[f"`{it}`", self.agree[it], self.differ[it], self.malformed[it]] for it in calls]

    def faults(self, most: int = 20) -> list[str]:
        """The shortest input of each kind of difference, the shortest first."""
        found = sorted(self.shortest.items(), key=lambda it: len(it[1]))
        return [f"{call} gives {given}, permitted {permitted}: {text}" for (call, given, permitted),
                text in found[:most]]
