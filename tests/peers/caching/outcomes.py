"""What came of the steps of a case, by what the client got and what the origin was asked."""
import re
from collections.abc import Iterable
from dataclasses import dataclass, field

from caching.cases import Case, Step
from caching.origin import Asked, body_of
from common.client import Response

FAILING = (500, 502, 503, 504)


@dataclass
class Answer:
    """The response that the client got to a step (status 0: none), after so many seconds."""

    response: Response
    took: float


@dataclass
class Result:
    """The outcome of a step (cases.py has their names), and what isn't as it has to be."""

    outcome: str
    wrong: list[str] = field(default_factory=list)


def number_of(step: Step, response: Response, asked: list[Asked]) -> int | None:
    """The number of the request to which the origin made the response that came."""
    if step.same and any(it.answered == 200 for it in asked):
        return int(response.get("req-num-answered") or 0) or None
    found = re.search(rb"answer (\d+)", response.body)
    text = found[1] if found else response.get("req-num-answered")
    return int(text) if text else None


def outcome_of(step: Step, number: int, answer: Answer, asked: list[Asked]) -> str:
    status = answer.response.status
    came = number_of(step, answer.response, asked)
    is_stored = came is not None and came < number
    if status == 0:
        return "502"
    if not asked:
        if status == 304:
            return "304"
        if came is None and status == 206:
            return "hit"
        return "hit" if is_stored else str(status)
    if came is None and status in FAILING:
        return str(status)
    if step.delay and answer.took < step.delay and is_stored:
        return "swr"
    if any(it.answered == 304 for it in asked):
        return "validated"
    if came == number:
        return "miss"
    if any(it.answered is None or it.answered in FAILING for it in asked):
        return str(status) if status in FAILING else "stale"
    return "swr" if is_stored else "miss"


def wrong_field(name: str, value: str | None, wanted: str | None, outcome: str, length: int) -> bool:
    if wanted is None:
        return value is not None
    if wanted == "none if hit":
        return outcome == "hit" and value is not None
    if least := re.fullmatch(r">=(\d+) if hit", wanted):
        return outcome == "hit" and (not (value or "").isdigit() or int(value or 0) < int(least[1]))
    if wanted == "whole":
        return value not in (None, str(length))
    return outcome in ("hit", "validated", "swr", "stale") and value != wanted.replace("whole", str(length))


def result_of(key: str, step: Step, number: int, answer: Answer, asked: list[Asked]) -> Result:
    outcome = outcome_of(step, number, answer, asked)
    result = Result(outcome)
    if step.expect and outcome not in step.expect:
        result.wrong.append(f"step {number}: {outcome}")
    for name, wanted in step.see.items():
        value = answer.response.get(name)
        if wrong_field(name, value, wanted, outcome, len(body_of(key, number))):
            result.wrong.append(f"step {number}: {name}: {value}")
    for name, value in step.sent.items():
        values = [it for request in asked for other, it in request.fields if other == name]
        if asked and value not in values:
            result.wrong.append(f"step {number}: asks with {name}: {values}")
    # (a cache may ask the origin for more than the client does: for the whole, or by GET)
    if number == 1 and asked and outcome == "miss":
        names = {name for name, _ in asked[0].fields}
        if (step.partial and "range" not in names) or asked[0].method != step.method:
            result.outcome = "asked otherwise"
    return result


def results_of(key: str, case: Case, answers: Iterable[Answer], asked: list[Asked]) -> list[Result]:
    return [
        result_of(key, step, number, answer, [it for it in asked if it.number == number])
        for number, (step, answer) in enumerate(zip(case.steps, answers), 1)
    ]


def verdict(case: Case, results: list[Result] | None, is_shared: bool) -> str:
    """`kept`, `broken`, or `not asked`: the case isn't about this cache, or its first response didn't come."""
    if results is None or case.is_shared not in (None, is_shared):
        return "not asked"
    if results[0].outcome != "miss" and not case.steps[0].expect:
        return "not asked"
    return "broken" if any(it.wrong for it in results) else "kept"
