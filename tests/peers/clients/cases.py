"""The cases of caching for a cache of one user: those about every cache or such a one, and another reading of those
about a shared cache."""
from collections.abc import Collection
from dataclasses import replace

from caching.cases import ALL, NOT_REUSED, REUSED, Case

STALE_OR_FRESH = {"stale", "hit"}
# What a private cache has to do, or may, where a case is about a shared one: the kind, the outcomes of the last step,
# and the section. A shared cache's directives say nothing to it: s-maxage (5.2.2.10), proxy-revalidate (5.2.2.8),
# private (5.2.2.7); nor does Authorization (3.5).
READINGS: dict[str, tuple[str, Collection[str], str]] = {
    "freshness-s-maxage": ("required", NOT_REUSED, "9111 4.2.4, 5.2.2.10"),
    "freshness-s-maxage-expires": ("required", NOT_REUSED, "9111 4.2.1, 5.2.2.10"),
    "store-private-field": ("optimal", REUSED, "9111 5.2.2.7"),
    "store-authorization-must-revalidate": ("optimal", REUSED, "9111 3.5"),
    "store-authorization-public": ("optimal", REUSED, "9111 3.5"),
    "store-authorization-s-maxage=3600": ("optimal", REUSED, "9111 3.5"),
    "store-authorization-other": ("check", {"miss"}, "9111 3.5"),
    "request-max-stale-proxy-revalidate": ("check", NOT_REUSED, "9111 5.2.1.2, 5.2.2.8"),
    "request-max-stale-s-maxage=1": ("check", NOT_REUSED, "9111 5.2.1.2, 5.2.2.10"),
    "stale-close-proxy-revalidate": ("check", STALE_OR_FRESH, "9111 4.2.4"),
    "stale-close-s-maxage=1": ("check", STALE_OR_FRESH, "9111 4.2.4"),
    "stale-503-proxy-revalidate": ("check", STALE_OR_FRESH, "9111 4.2.4"),
    "stale-503-s-maxage=1": ("check", STALE_OR_FRESH, "9111 4.2.4"),
}
# Cases that would only say again what another one says of a private cache.
LEFT_OUT = {
    "freshness-s-maxage-0": "freshness-s-maxage-private",
    "store-private": "store-private-browser",
    "store-authorization": "store-authorization-private",
}


def reading(case: Case) -> Case:
    """The case as it is about a private cache."""
    if case.is_shared is not True:
        return case
    kind, expect, cites = READINGS[case.id]
    *first, last = case.steps
    return replace(case, kind=kind, steps=[*first, replace(last, expect=expect)], is_shared=False, cites=cites)


PRIVATE = [reading(case) for case in ALL if case.id not in LEFT_OUT]
