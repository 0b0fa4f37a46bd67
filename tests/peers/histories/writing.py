"""Calls of a cache and their answers, as lines of a history for the program `test_decisions`."""
from collections.abc import Collection, Iterable
from dataclasses import dataclass
from typing import Any

from common.fields import Fields
from common.rows import map_words, word
from histories.model import Answer, Request, Stored


def head(is_shared: bool, variants: int, responses: int, is_immutable: bool, targeted: tuple[str, ...]) -> str:
    """The line that begins a history."""
    limits = f"cache {'shared' if is_shared else 'private'} {variants} {responses} 1000000"
    if not is_immutable and not targeted:
        return limits
    return " ".join([limits, "immutable" if is_immutable else "plain", *targeted])


@dataclass(frozen=True)
class Told:
    """What a step of a pass answers. With a stored response: how that answers the request, and at what age."""

    word: str
    way: str = ""
    stored: Stored | None = None
    age: int = 0
    conditions: tuple[tuple[str, str | None], ...] = ()

    def row(self) -> str:
        if self.stored is None:
            return words([self.word, *condition_words(self.conditions)])
        if self.word == "once":
            return words(["once", self.way, *stored_words(self.stored)])
        return words([self.word, self.way, word(self.stored.content), "(age)", self.age])


@dataclass(frozen=True)
class Call:
    """A call, and the answers that the standard permits. Nearly always it is one."""

    text: str
    permitted: Collection[str]
    # The word of the answer by which the history goes on, if another one is permitted that changes what is stored.
    goes_on_by: str = ""
    # What the package for Python gets, and what it may answer.
    given: tuple[Any, ...] = ()
    told: tuple[Told, ...] = ()

    def line(self) -> str:
        return f"  {self.text} = {min(self.permitted)}"


def words(parts: Iterable[object]) -> str:
    return " ".join(map(str, parts))


def request_words(request: Request) -> list[str]:
    return [word(request.method), *map_words(request.fields)]


def came_words(came: Stored) -> list[object]:
    """A response as it came, with its request."""
    return [came.requested, came.received, *request_words(came.request), "(/)", came.status, word(came.content),
            *map_words(came.fields)]


def sorted_words(fields: Fields) -> list[str]:
    """Fields by their names."""
    return map_words(sorted(fields, key=lambda it: it[0].lower())) or ["(none)"]


def stored_words(stored: Stored) -> list[object]:
    return [stored.request.method, stored.status, word(stored.content), stored.requested, stored.received,
            *sorted_words(stored.fields)]


def answer_words(answer: Answer) -> list[object]:
    if answer.response is None:
        return [answer.word]
    if answer.word == "once":
        return ["once", *stored_words(answer.response)]
    return [answer.word, word(answer.response.content), *condition_words(answer.fields)]


def condition_words(fields: Iterable[tuple[str, str | None]]) -> list[str]:
    """Fields that are set; without a value there is none."""
    return [it for name, value in fields for it in ((f"({name})",) if value is None else (f"({name})", word(value)))]


def responses_words(found: list[Stored]) -> list[object]:
    """All responses of a target."""
    return [len(found), *(it for stored in found for it in ("(/)", *stored_words(stored)))]
