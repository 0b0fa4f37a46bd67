"""The library beside the model of RFC 9111 on random inputs."""
import json
from collections.abc import Callable
from dataclasses import asdict
from typing import Any

from caching import generate, model
from common import products
from common.comparison import Comparison
from common.fields import Fields, section


def permitted(call: Callable[[], Any]) -> Any:
    try:
        return call()
    except model.Malformed:
        return None


def shown(case: generate.Case, *parts: str) -> Callable[[], str]:
    """The parts of a case that count for a call."""
    return lambda: json.dumps({name: value for name, value in asdict(case).items() if name in parts})


def trimmed(fields: Fields) -> Fields:
    return [(name, value.strip(" \t")) for name, value in fields]


def by_library(cases: list[generate.Case], comparison: Comparison) -> None:
    headers = products.library()

    def given(call: Callable[..., Any], *arguments: Any, **named: Any) -> Any:
        try:
            return call(*arguments, **named)
        except headers.HeaderError:
            return "(refused)"

    for case in cases:
        stored, request, response = map(section, (case.stored, case.request, case.response))
        times = (case.asked, case.received, case.now)
        is_shared = case.is_shared
        comparison.add(
            "may_store",
            permitted(lambda: {
                model.may_store(case.stored_method, case.status, case.request, case.response, is_shared)}),
            given(headers.may_store, case.stored_method, request, case.status, response, shared=is_shared),
            shown(case, "stored_method", "status", "request", "response", "is_shared"))
        comparison.add(
            "lifetime", permitted(lambda: model.lifetimes(case.response, case.received, is_shared)),
            given(headers.lifetime, response, case.received, shared=is_shared),
            shown(case, "response", "received", "is_shared"))
        comparison.add(
            "current_age", permitted(lambda: model.current_ages(case.response, *times)),
            given(headers.current_age, response, headers.Times(*times)),
            shown(case, "response", "asked", "received", "now"))
        comparison.add(
            "decide",
            permitted(lambda: model.decisions(
                case.stored_method, case.stored, case.method, case.request, case.response, *times, is_shared)),
            given(headers.decide, case.stored_method, stored, case.method, request, response, headers.Times(*times),
                  shared=is_shared),
            shown(case, *asdict(case)))
        comparison.add(
            "heuristic_lifetime",
            permitted(lambda: model.heuristics(case.status, case.response, case.received, is_shared)),
            given(headers.heuristic_lifetime, case.status, response, case.received, shared=is_shared),
            shown(case, "status", "response", "received", "is_shared"))
        comparison.add(
            "validators", [sorted(model.validators(case.response, case.received))],
            sorted(given(headers.validators, response, case.received)),
            shown(case, "response", "received"))


def without_control(fields: Fields) -> Fields:
    return [it for it in trimmed(fields) if it[0].lower() not in ("cache-control", "pragma")]


def by_vary(cases: list[generate.Case], comparison: Comparison) -> None:
    """Whether a fresh response suits the request, by Vary alone."""
    headers = products.library()
    for case in cases:
        stored, request = map(without_control, (case.stored, case.request))
        response = [it for it in trimmed(case.response) if it[0].lower() == "vary"]
        found = headers.decide("GET", section(stored), "GET", section(request),
                               section([*response, ("cache-control", "max-age=60")]), headers.Times(0, 0, 0), shared=False)
        comparison.add("matches", permitted(lambda: model.vary_matches(stored, request, response)),
                       found is headers.Decision.SERVE, shown(case, "stored", "request", "response"))


def compare(seed: int, count: int) -> Comparison:
    comparison = Comparison()
    cases = list(generate.cases(seed, count))
    by_library(cases, comparison)
    by_vary(cases, comparison)
    return comparison
