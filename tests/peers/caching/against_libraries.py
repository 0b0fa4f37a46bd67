"""Storing and serving, beside two libraries: http-cache-semantics (node) and pquerna/cachecontrol (Go)."""
import collections
import json
from dataclasses import asdict
from pathlib import Path

from caching import generate, model
from caching.against_model import permitted
from common import processes, products
from common.fields import section
from common.part import Context, Part
from common.processes import Missing

PEERS = Path(__file__).with_name("peers")
COUNT = 20_000
# Of each case: whether the response may be stored, and whether it serves the second request (`None`: the library can't
# say).
Choices = list[tuple[bool | str | None, bool | str | None]]


def by_node(path: Path) -> Choices:
    return [(stores, serves) for stores, serves in json.loads(processes.output(["node", PEERS / "semantics.js", path]))]


def by_go(path: Path) -> Choices:
    binary = path.with_name("pquerna")
    processes.output(["go", "build", "-o", binary, PEERS / "pquerna.go"])
    return [(it, None) for it in json.loads(processes.output([binary, path]))]


LIBRARIES = {"http-cache-semantics": by_node, "pquerna/cachecontrol": by_go}


def by_ours(case: generate.Case) -> tuple[bool, bool] | None:
    headers = products.library()
    stored, request, response = map(section, (case.stored, case.request, case.response))
    method, times = case.stored_method, headers.Times(case.asked, case.received, case.now)
    try:
        stores = headers.may_store(method, stored, case.status, response, shared=case.is_shared)
        decision = headers.decide(method, stored, method, request, response, times, shared=case.is_shared)
    except headers.HeaderError:
        return None
    return stores, int(decision) in (model.SERVE, model.SERVE_AND_REVALIDATE, model.SERVE_STALE)


def by_model(case: generate.Case) -> tuple[set[bool], set[bool]] | None:
    def choices() -> tuple[set[bool], set[bool]]:
        stores = model.may_store(case.stored_method, case.status, case.stored, case.response, case.is_shared)
        found = model.decisions(case.stored_method, case.stored, case.stored_method, case.request, case.response,
                                case.asked, case.received, case.now, case.is_shared)
        return {stores}, {it in (model.SERVE, model.SERVE_AND_REVALIDATE, model.SERVE_STALE) for it in found}

    return permitted(choices)


def kind_of(own: bool, theirs: bool | str, choices: set[bool] | None) -> str:
    if isinstance(theirs, str):
        return "fails"
    if own == theirs:
        return "same"
    if choices is None:
        return "malformed"
    return {(True, False): "we", (False, True): "they",
            (True, True): "either"}.get((own in choices, theirs in choices), "none")


def compare(context: Context, part: Part) -> None:
    cases = list(generate.cases(context.seed, COUNT))
    path = context.work / "random.json"
    path.write_text(json.dumps([
        {**asdict(it), "method": it.stored_method, "shared": it.is_shared} for it in cases]), "utf-8")
    rows: list[list[object]] = []
    for name, choose in LIBRARIES.items():
        try:
            given = choose(path)
        except Missing as missing:
            part.missing.append(f"{name}: {missing}")
            continue
        tallies = [collections.Counter[str](), collections.Counter[str]()]
        for case, choices in zip(cases, given):
            own, right = by_ours(case), by_model(case)
            for place, (tally, theirs) in enumerate(zip(tallies, choices)):
                if own is not None and theirs is not None:
                    tally[kind_of(own[place], theirs, right and right[place])] += 1
        for what, tally in zip(("stores", "serves"), tallies):
            if tally:
                rows.append([f"{name}: {what}", *(tally[it] for it in ("same", "they", "we", "either", "malformed",
                                                                       "fails"))])
    part.section += [f"Two libraries beside ours on {COUNT:,} random inputs, judged by the model:", ""]
    part.table(["Library", "as ours", "they are right", "we are right", "either", "malformed, without a rule",
                "fails"], rows)
