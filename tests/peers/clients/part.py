"""Client caches: HTTP clients of Python make the requests of the cases of caching."""
from dataclasses import dataclass

from caching import origin
from caching.caches import Judged
from caching.part import HEAD, broken_cases, counts_of, numbers_of, table_of_broken
from clients import clients
from clients.cases import LEFT_OUT, PRIVATE, READINGS
from common.part import Context, Part
from common.processes import Missing

INTRODUCTION = """
HTTP clients of Python make the requests of the same cases to the same origin. Each has a cache for one user, which is
empty when a case begins. {read} cases about a shared cache are judged as RFC 9111 has them for a private one: s-maxage,
proxy-revalidate, private and Authorization mean nothing to it. {out} more are left out, as each would repeat another
case. *Raises* are cases in which a client raises an exception although the origin's response came whole. requests sends
no two lines of one field, so a case with them isn't asked. requests-cache has `cache_control=True` and Scrapy
`RFC2616Policy`, as they follow no field of a response otherwise. Clients follow no redirect, and Scrapy has no cookies
and no second try. All else is as it comes.
"""


@dataclass
class Found:
    """What a client did, and in how many cases it raised an exception in place of a response."""

    kind: clients.Kind
    judged: Judged
    raises: int


def judge_clients(part: Part) -> list[Found]:
    found = []
    server = origin.start(0)
    for kind in clients.KINDS:
        try:
            found.append(Found(kind, *clients.judge(kind, server.server_address[1])))
        except Missing as missing:
            part.missing.append(f"{kind.name}: {missing}")
            continue
        counts = counts_of(found[-1].judged, PRIVATE)
        print(f"clients: {found[-1].judged.title}: required cases: {counts['required', 'kept']} kept, "
              f"{counts['required', 'broken']} broken", flush=True)
    server.shutdown()
    server.server_close()
    return found


def row_of(found: Found) -> list[object]:
    *numbers, not_asked = numbers_of(found.judged, PRIVATE)
    return [found.judged.title, *numbers, found.raises, not_asked - found.raises]


def run(_: Context) -> Part:
    part = Part("Clients with a cache")
    found = judge_clients(part)
    part.section += INTRODUCTION.strip().format(read=len(READINGS), out=len(LEFT_OUT)).split("\n") + [""]
    part.table(["Client", *HEAD[1:-1], "raises", HEAD[-1]], [row_of(it) for it in found])
    table_of_broken(part, [it.judged for it in found], PRIVATE, "client")
    for it in found:
        if it.kind.is_ours:
            part.want(f"required cases that {it.judged.title} keeps", counts_of(it.judged, PRIVATE)["required", "kept"],
                      sum(case.kind == "required" for case in PRIVATE))
            part.faults += broken_cases(it.judged, PRIVATE)
    return part
