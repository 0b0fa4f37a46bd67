"""Caching: real caches, libraries and the model of RFC 9111."""
import collections

from caching import against_libraries, against_model, caches, cases, origin
from caching.caches import Cache, Judged
from caching.cases import Case
from caching.outcomes import verdict
from common.part import Context, Part
from common.processes import Missing

INTRODUCTION = """
Each cache is a proxy in front of one origin server. Chromium's own cache is used by a page of the origin. Each cache
gets {count} cases of one to three requests. *Required* cases are those of a MUST, MUST NOT, SHOULD or SHOULD NOT of
RFC 9110, 9111, 9112 and 5861. *Optional reuse* are cases in which a cache may answer with a stored response. In all other
cases both answers conform; the table counts how often a cache gives the stricter one. A case isn't asked if it is about
the other kind of cache, or if the cache asked the origin for more than its client did.

Ours is a small proxy that follows `cache_policy` and `decide_preconditions`. They leave some choices to their
caller, as the key under which a response is stored; these are a few lines of Python. *The store* is a proxy, too, whose
responses are in `cache_store`; *the gateway* is `typed-headers-gate`, with `cache-guess`. Varnish runs with its built-in
rules, `default_grace=0` and `default_keep=3600`, and nginx with `proxy_cache_revalidate on`. All others run as they
come.
"""


def counts_of(judged: Judged, asked: list[Case]) -> collections.Counter[tuple[str, str]]:
    return collections.Counter(
        (case.kind, verdict(case, judged.results.get(case.id), judged.cache.is_shared)) for case in asked)


def judge_caches(context: Context, part: Part) -> list[Judged]:
    found = []
    server = origin.start(caches.ORIGIN)
    for cache in caches.CACHES:
        work = context.work / cache.name.replace(" ", "-").replace(",", "")
        work.mkdir(parents=True)
        work.chmod(0o777)
        try:
            found.append(caches.judge(cache, work))
            counts = counts_of(found[-1], cases.ALL)
            print(f"caching: {found[-1].title}: required cases: {counts['required', 'kept']} kept, "
                  f"{counts['required', 'broken']} broken", flush=True)
        except Missing as missing:
            part.missing.append(f"{cache.name}: {missing}")
    server.shutdown()
    server.server_close()
    return found


HEAD = ["Cache", "required: kept", "broken", "optional reuse: made", "not made", "either: stricter", "other", "not asked"]


def numbers_of(judged: Judged, asked: list[Case]) -> list[int]:
    """The row of a cache behind its title."""
    counts = counts_of(judged, asked)
    numbers = [counts[kind, it] for kind in ("required", "optimal", "check") for it in ("kept", "broken")]
    return [*numbers, sum(count for (_, it), count in counts.items() if it == "not asked")]


def table_of_broken(part: Part, found: list[Judged], asked: list[Case], what: str) -> None:
    """The required cases that some cache breaks, with the section."""
    rows: list[list[object]] = []
    for case in asked:
        broken = [it.title for it in found if case.kind == "required"
                  and verdict(case, it.results.get(case.id), it.cache.is_shared) == "broken"]
        if broken:
            rows.append([f"`{case.id}`", case.cites, ", ".join(broken)])
    part.section += [f"Required cases that some {what} breaks, with the section:", ""]
    part.table(["Case", "RFC", "Broken by"], rows)


def cache_of(found: list[Judged], cache: Cache) -> Judged | None:
    return next((it for it in found if it.cache is cache), None)


def broken_cases(judged: Judged, asked: list[Case]) -> list[str]:
    """The required cases that a cache breaks, with what shows it."""
    return [f"{case.id}: {[it.wrong for it in judged.results[case.id] if it.wrong]}" for case in asked
            if case.kind == "required"
            and verdict(case, judged.results.get(case.id), judged.cache.is_shared) == "broken"]


def want_all_kept(part: Part, ours: Judged) -> None:
    counts = counts_of(ours, cases.ALL)
    kept, broken = counts["required", "kept"], counts["required", "broken"]
    # (one more isn't asked: the proxy hands on no response that was cut off)
    part.want(f"required cases of a shared cache that {ours.title} keeps", f"{kept} of {kept + broken}", "101 of 101")
    part.faults += broken_cases(ours, cases.ALL)


def run(context: Context) -> Part:
    part = Part("Caching")
    found = judge_caches(context, part)
    part.section += INTRODUCTION.strip().format(count=len(cases.ALL)).split("\n") + [""]
    part.table(HEAD, [[it.title, *numbers_of(it, cases.ALL)] for it in found])
    table_of_broken(part, found, cases.ALL, "cache")
    for cache in (caches.OURS, caches.STORE, caches.GATE):
        if ours := cache_of(found, cache):
            want_all_kept(part, ours)
    against_libraries.compare(context, part)
    comparison = against_model.compare(context.seed, context.inputs)
    part.section += [f"`cache_policy` beside a model of RFC 9111, on {context.inputs:,} random inputs:", ""]
    part.table(["Call", "as the model", "otherwise", "malformed, without a rule"], comparison.rows())
    part.want(f"differences from the model on {context.inputs:,} inputs", comparison.differences, 0)
    part.faults += comparison.faults()
    return part
