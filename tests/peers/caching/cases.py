"""Cases of the kind of the public cache-tests suite, for caches before an origin of ours.

A case has a group, a name, a kind and steps. Its kind says what RFC 9110, 9111 or 5861 has of it:

    required   a MUST, MUST NOT, SHOULD or SHOULD NOT
    optimal    the RFC lets a cache reuse the response, and a good cache does
    check      either is conforming

A step has what the client sends, what the origin answers if it is asked, how long the client waits after it, and what
may come of it:

    hit        the stored response, and the origin wasn't asked
    validated  the stored response, after a 304 of the origin
    swr        the stored response, and the origin is asked meanwhile
    stale      the stored response, after the origin failed
    miss       the origin's new response (a conditional request may have been sent)
    304, 504.. a response that the cache made

In values of the origin's fields {now}, {now-10}, {now+10} are dates, and {now+10:850}, {now+10:asc} have the obsolete
formats; {url} is the target.
"""
from collections.abc import Collection, Iterable
from dataclasses import dataclass, field
from typing import Any

from common.fields import Fields

NOT_REUSED = {"miss", "validated"}
REUSED = {"hit"}
ERROR = {"502", "503", "504", "500"}


@dataclass
class Step:
    """A request, and the origin's answer to it."""

    fields: Fields
    status: int = 200
    method: str = "GET"
    send: Fields = field(default_factory=list)
    query: str = ""
    pause: float = 0
    # What may come. Any outcome may, if this is empty.
    expect: Collection[str] = ()
    # Fields that the client's response has to have, or with `None` not to have.
    see: dict[str, str | None] = field(default_factory=dict)
    # Fields with which the origin has to be asked.
    sent: dict[str, str] = field(default_factory=dict)
    # The origin closes the connection, waits first, ends the body early, answers a condition by 304, or a range by 206, or
    # sends a second response late, that nobody asked for.
    close: bool = False
    delay: float = 0
    truncate: bool = False
    same: bool = False
    partial: bool = False
    late: bool = False


@dataclass
class Case:
    """`is_shared` is `None` if the case is about every cache."""

    group: str
    name: str
    kind: str
    steps: list[Step]
    is_shared: bool | None = None
    cites: str = ""

    @property
    def id(self) -> str:
        return f"{self.group}-{self.name}"

    @property
    def is_alone(self) -> bool:
        """Whether no other case is asked meanwhile, as it could get what the origin sends unasked."""
        return any(it.late for it in self.steps)


ALL: list[Case] = []


def step(
    fields: Iterable[tuple[str, str]] = (), status: int = 200, send: Iterable[tuple[str, str]] = (), **more: Any
) -> Step:
    return Step(list(fields), status, send=list(send), **more)


def case(group: str, name: str, kind: str, *steps: Step, shared: bool | None = None, cites: str = "") -> None:
    ALL.append(Case(group, name, kind, list(steps), shared, cites))


def cc(*values: str) -> Fields:
    return [("Cache-Control", value) for value in values]


DATE = ("Date", "{now}")
LM = ("Last-Modified", "{now-864000}")


def twice(group: str, name: str, kind: str, fields: Fields, expect: set[str], send: Iterable[tuple[str, str]] = (),
          status: int = 200, pause: float = 0, shared: bool | None = None, cites: str = "",
          method: str = "GET") -> None:
    """A response, and the same request again."""
    case(group, name, kind, step(fields, status, send, pause=pause, method=method),
         step(fields, status, send, expect=expect, method=method), shared=shared, cites=cites)


# Freshness by Cache-Control (4.2.1, 5.2.2.1, 5.2.2.10)
G = "freshness"
twice(G, "none", "check", [DATE], REUSED)
twice(G, "max-age", "optimal", [DATE] + cc("max-age=3600"), REUSED)
twice(G, "max-age-0", "required", [DATE] + cc("max-age=0"), NOT_REUSED, cites="9111 4.2")
twice(G, "max-age-stale", "required", [DATE] + cc("max-age=1"), NOT_REUSED, pause=3, cites="9111 4.2.4")
twice(G, "max-age-age", "required", [DATE, ("Age", "7200")] + cc("max-age=3600"), NOT_REUSED, cites="9111 4.2.3")
twice(G, "max-age-less-age", "optimal", [DATE, ("Age", "1800")] + cc("max-age=3600"), REUSED)
twice(G, "max-age-date", "required", [("Date", "{now-7200}")] + cc("max-age=3600"), NOT_REUSED, cites="9111 4.2.3")
twice(G, "max-age-no-date", "optimal", cc("max-age=3600"), REUSED)
twice(G, "max-age-bad-date", "check", [("Date", "foo")] + cc("max-age=3600"), REUSED)
twice(G, "max-age-future-date", "optimal", [("Date", "{now+3600}")] + cc("max-age=3600"), REUSED)
for number in ("2147483647", "2147483648", "4294967296", "99999999999", "18446744073709551616"):
    twice(G, f"max-age-{number}", "optimal", [DATE] + cc(f"max-age={number}"), REUSED, cites="9111 1.2.2")
twice(G, "max-age-upper", "optimal", [DATE] + cc("MAX-AGE=3600"), REUSED)
twice(G, "max-age-quoted", "optimal", [DATE] + cc('max-age="3600"'), REUSED, cites="9111 5.2")
twice(G, "max-age-leading-zero", "optimal", [DATE] + cc("max-age=003600"), REUSED)
for name, value in (("negative", "-3600"), ("letter-first", "a3600"), ("single-quoted", "'3600'"), ("empty", "")):
    twice(G, f"max-age-{name}", "check", [DATE] + cc(f"max-age={value}"), NOT_REUSED, cites="9111 4.2.1: encouraged")
for name, value in (("letter-last", "3600a"), ("decimal", "3600.0"), ("plus", "+3600"), ("space-after", " 3600")):
    twice(G, f"max-age-{name}", "check", [DATE] + cc(f"max-age={value}"), NOT_REUSED)
twice(G, "max-age-space-before", "check", [DATE] + cc("max-age =3600"), NOT_REUSED)
twice(G, "max-age-expires-past", "optimal", [DATE, ("Expires", "{now-3600}")] + cc("max-age=3600"), REUSED,
      cites="9111 5.3")
twice(G, "max-age-0-expires", "required", [DATE, ("Expires", "{now+3600}")] + cc("max-age=0"), NOT_REUSED,
      cites="9111 5.3")
twice(G, "max-age-expires-bad", "optimal", [DATE, ("Expires", "0")] + cc("max-age=3600"), REUSED)
twice(G, "s-maxage", "optimal", [DATE] + cc("max-age=1, s-maxage=3600"), REUSED, pause=3, shared=True)
twice(G, "s-maxage-0", "required", [DATE] + cc("max-age=3600, s-maxage=0"), NOT_REUSED, shared=True,
      cites="9111 5.2.2.10")
twice(G, "s-maxage-private", "optimal", [DATE] + cc("max-age=3600, s-maxage=0"), REUSED, shared=False)
twice(G, "s-maxage-expires", "optimal", [DATE, ("Expires", "{now-10}")] + cc("s-maxage=3600"), REUSED, shared=True)
twice(G, "two-lines", "optimal", [DATE] + cc("public", "max-age=3600"), REUSED)
twice(G, "twice-first-0", "check", [DATE] + cc("max-age=0, max-age=3600"), NOT_REUSED)
twice(G, "twice-second-0", "check", [DATE] + cc("max-age=3600, max-age=0"), NOT_REUSED)
twice(G, "quoted-extension", "required", [DATE] + cc('x="max-age=3600"'), NOT_REUSED, status=599, cites="9111 5.2")
twice(G, "quoted-comma", "required", [DATE] + cc('x="a, max-age=3600, b"'), NOT_REUSED, status=599, cites="9111 5.2")
twice(G, "unknown-directives", "optimal", [DATE] + cc("foo, max-age=3600, bar=baz, x=\"y, z\""), REUSED)
twice(G, "obs-text-extension", "optimal", [DATE] + cc('max-age=3600, x="\xe9"'), REUSED, cites="9111 5.2.3")
twice(G, "escaped-quote", "optimal", [DATE] + cc('x="\\"", max-age=3600'), REUSED, cites="9110 5.6.4")
twice(G, "empty-members", "optimal", [DATE] + cc(",, max-age=3600 ,,"), REUSED)
twice(G, "semicolon", "check", [DATE] + cc("max-age=3600; no-store"), NOT_REUSED)

# Expires (5.3)
G = "expires"
twice(G, "future", "optimal", [DATE, ("Expires", "{now+3600}")], REUSED)
twice(G, "past", "required", [DATE, ("Expires", "{now-3600}")], NOT_REUSED, cites="9111 4.2.1")
twice(G, "present", "required", [DATE, ("Expires", "{now}")], NOT_REUSED, cites="9111 4.2.1")
twice(G, "old-date", "required", [("Date", "{now-7200}"), ("Expires", "{now-3600}")], NOT_REUSED, cites="9111 4.2.1")
twice(G, "zero", "required", [DATE, ("Expires", "0")], NOT_REUSED, cites="9111 5.3")
twice(G, "minus", "required", [DATE, ("Expires", "-1")], NOT_REUSED, cites="9111 5.3")
twice(G, "number", "required", [DATE, ("Expires", "3600")], NOT_REUSED, cites="9111 5.3")
twice(G, "word", "required", [DATE, ("Expires", "never")], NOT_REUSED, cites="9111 5.3")
twice(G, "empty", "required", [DATE, ("Expires", "")], NOT_REUSED, cites="9111 5.3")
twice(G, "rfc850", "optimal", [DATE, ("Expires", "{now+3600:850}")], REUSED, cites="9110 5.6.7")
twice(G, "asctime", "optimal", [DATE, ("Expires", "{now+3600:asc}")], REUSED, cites="9110 5.6.7")
for name, form in (("lower", "lower"), ("no-zone", "nozone"), ("utc", "utc"), ("offset", "offset"), ("no-day", "noday"),
                   ("spaces", "spaces"), ("one-digit", "onedigit"), ("two-digit-year", "year2"),
                   ("dashes", "dashes")):
    twice(G, f"form-{name}", "check", [DATE, ("Expires", "{now+3600:" + form + "}")], NOT_REUSED)
# The grammar asks for the name of a day, and for no certain one.
twice(G, "form-wrong-day", "check", [DATE, ("Expires", "{now+3600:wrongday}")], REUSED)
twice(G, "no-date", "optimal", [("Expires", "{now+3600}")], REUSED, cites="9111 4.2.1")
twice(G, "age", "required", [DATE, ("Expires", "{now+3600}"), ("Age", "7200")], NOT_REUSED, cites="9111 4.2.3")
twice(G, "two-lines", "check", [DATE, ("Expires", "{now-10}"), ("Expires", "{now+3600}")], NOT_REUSED)
twice(G, "far", "optimal", [DATE, ("Expires", "Fri, 31 Dec 9999 23:59:59 GMT")], REUSED)

# Age (4.2.3, 5.1)
G = "age"
FRESH = [DATE] + cc("max-age=3600")
twice(G, "list-first-old", "required", FRESH + [("Age", "7200, 0")], NOT_REUSED, cites="9111 5.1 (SHOULD)")
twice(G, "list-first-young", "optimal", FRESH + [("Age", "0, 7200")], REUSED, cites="9111 5.1")
twice(G, "lines-first-old", "required", FRESH + [("Age", "7200"), ("Age", "0")], NOT_REUSED, cites="9111 5.1 (SHOULD)")
twice(G, "lines-first-young", "optimal", FRESH + [("Age", "0"), ("Age", "7200")], REUSED, cites="9111 5.1")
for name, value in (("word", "abc"), ("negative", "-7200"), ("decimal", "7200.0"), ("parameter", "7200;a=b"),
                    ("quoted", '"7200"'), ("suffix", "7200a"), ("empty", "")):
    twice(G, f"bad-{name}", "optimal" if name in ("word", "empty") else "check", FRESH + [("Age", value)], REUSED,
          cites="9111 5.1: SHOULD ignore")
case(G, "sent", "required", step(FRESH, pause=2), step(FRESH, expect=REUSED | NOT_REUSED, see={"age": ">=1 if hit"}),
     cites="9111 4, 5.1: MUST generate an Age")
case(G, "added", "required", step(FRESH + [("Age", "1000")]),
     step(FRESH, expect=REUSED | NOT_REUSED, see={"age": ">=1000 if hit"}),
     cites="9111 4.2.3")

# What may be stored (3)
G = "store"
twice(G, "no-store", "required", FRESH + cc("no-store"), {"miss"}, cites="9111 5.2.2.5")
twice(G, "no-store-upper", "required", FRESH + cc("NO-STORE"), {"miss"}, cites="9111 5.2.2.5")
twice(G, "no-store-argument", "check", FRESH + cc("no-store=x"), {"miss"})
twice(G, "no-store-after-escape", "required", [DATE] + cc('max-age=3600, x="\\"", no-store'), {"miss"},
      cites="9110 5.6.4, 9111 5.2.2.5")
twice(G, "no-store-quoted", "optimal", [DATE] + cc('max-age=3600, x="no-store"'), REUSED)
twice(G, "no-store-open-quote", "check", [DATE] + cc('max-age=3600, x="a, no-store'), {"miss"})
twice(G, "no-cache", "required", FRESH + cc("no-cache"), NOT_REUSED, cites="9111 5.2.2.4")
twice(G, "no-cache-field", "check", FRESH + [("X-A", "1")] + cc('no-cache="x-a"'), NOT_REUSED)
twice(G, "private", "required", FRESH + cc("private"), {"miss"}, shared=True, cites="9111 5.2.2.7")
twice(G, "private-browser", "optimal", FRESH + cc("private"), REUSED, shared=False)
twice(G, "private-field", "check", FRESH + [("X-A", "1")] + cc('private="x-a"'), {"miss"}, shared=True)
twice(G, "request-no-store", "required", FRESH, {"miss"}, send=cc("no-store"), cites="9111 5.2.1.5")
twice(G, "must-understand", "check", [DATE] + cc("max-age=3600, no-store, must-understand"), REUSED,
      cites="9111 5.2.2.3 SHOULD")
twice(G, "must-understand-599", "required", [DATE] + cc("max-age=3600, no-store, must-understand"), {"miss"},
      status=599, cites="9111 5.2.2.3")
twice(G, "set-cookie", "check", FRESH + [("Set-Cookie", "a=b")], REUSED)
twice(G, "pragma-response", "check", FRESH + [("Pragma", "no-cache")], REUSED)
twice(G, "public", "check", [DATE] + cc("public"), REUSED)
for directive in ("must-revalidate", "public", "s-maxage=3600"):
    twice(G, f"authorization-{directive}", "optimal", FRESH + cc(directive), REUSED,
          send=[("Authorization", "Basic YTpi")], shared=True, cites="9111 3.5")
twice(G, "authorization", "required", FRESH, {"miss"}, send=[("Authorization", "Basic YTpi")], shared=True,
      cites="9111 3.5")
case(G, "authorization-other", "required", step(FRESH, send=[("Authorization", "Basic YTpi")]),
     step(FRESH, expect={"miss"}),
     shared=True, cites="9111 3.5")
twice(G, "authorization-private", "optimal", FRESH, REUSED, send=[("Authorization", "Basic YTpi")], shared=False)
case(G, "query", "optimal", step(FRESH, query="?a=b"), step(FRESH, query="?a=b", expect=REUSED))
case(G, "query-other", "required", step(FRESH, query="?a=b"), step(FRESH, query="?a=c", expect={"miss"}),
     cites="9111 2")
case(G, "truncated", "required", step(FRESH, truncate=True), step(FRESH, expect={"miss"}), cites="9111 3.3, 3.4")

# Statuses
G = "status"
for status in (200, 203, 204, 299, 300, 301, 302, 303, 307, 308, 400, 403, 404, 405, 410, 414, 499, 500, 501, 502, 503,
               504, 599):
    twice(G, f"{status}-fresh", "optimal", FRESH, REUSED, status=status)
for status in (200, 203, 204, 300, 301, 308, 404, 405, 410, 414, 501):
    twice(G, f"{status}-heuristic", "check", [DATE, LM], REUSED, status=status, cites="9111 4.2.2")
for status in (299, 302, 303, 307, 400, 403, 499, 500, 502, 503, 504, 599):
    twice(G, f"{status}-no-heuristic", "required", [DATE, LM], NOT_REUSED, status=status, cites="9111 4.2.2 MUST NOT")
twice(G, "599-public-heuristic", "check", [DATE, LM] + cc("public"), REUSED, status=599, cites="9111 4.2.2")
twice(G, "200-heuristic-expires-past", "required", [DATE, LM, ("Expires", "{now-10}")], NOT_REUSED, cites="9111 4.2.2")
twice(G, "200-heuristic-future-lm", "check", [DATE, ("Last-Modified", "{now+3600}")], NOT_REUSED)

# Vary (4.1)
G = "vary"


def vary(name: str, kind: str, vary_lines: list[str], first: Fields, second: Fields, expect: set[str]) -> None:
    fields = FRESH + [("Vary", it) for it in vary_lines]
    case(G, name, kind, step(fields, send=first), step(fields, send=second, expect=expect), cites="9111 4.1")


vary("same", "optimal", ["X-A"], [("X-A", "1")], [("X-A", "1")], REUSED)
vary("other", "required", ["X-A"], [("X-A", "1")], [("X-A", "2")], {"miss"})
vary("gone", "required", ["X-A"], [("X-A", "1")], [], {"miss"})
vary("new", "required", ["X-A"], [], [("X-A", "1")], {"miss"})
vary("empty-and-absent", "required", ["X-A"], [("X-A", "")], [], {"miss"})
vary("neither", "optimal", ["X-A"], [], [], REUSED)
vary("star", "required", ["*"], [("X-A", "1")], [("X-A", "1")], {"miss"} | NOT_REUSED)
vary("star-member", "required", ["X-A, *"], [("X-A", "1")], [("X-A", "1")], {"miss"} | NOT_REUSED)
vary("star-line", "required", ["X-A", "*"], [("X-A", "1")], [("X-A", "1")], {"miss"} | NOT_REUSED)
vary("upper", "required", ["X-a"], [("x-A", "1")], [("X-A", "2")], {"miss"})
vary("two-names", "optimal", ["X-A, X-B"], [("X-A", "1"), ("X-B", "2")], [("X-A", "1"), ("X-B", "2")], REUSED)
vary("two-names-second-other", "required", ["X-A, X-B"], [("X-A", "1"), ("X-B", "2")], [("X-A", "1"), ("X-B", "3")],
     {"miss"})
vary("two-lines-second-other", "required", ["X-A", "X-B"], [("X-A", "1"), ("X-B", "2")], [("X-A", "1"), ("X-B", "3")],
     {"miss"})
vary("unnamed-other", "optimal", ["X-A"], [("X-A", "1"), ("X-B", "2")], [("X-A", "1"), ("X-B", "3")], REUSED)
vary("language-space", "optimal", ["Accept-Language"], [("Accept-Language", "en, de")], [("Accept-Language", "en,de")],
     REUSED)
vary("language-lines", "optimal", ["Accept-Language"], [("Accept-Language", "en, de")],
     [("Accept-Language", "en"), ("Accept-Language", "de")], REUSED)
vary("language-order", "check", ["Accept-Language"], [("Accept-Language", "en, de")], [("Accept-Language", "de, en")],
     REUSED)
vary("language-case", "check", ["Accept-Language"], [("Accept-Language", "en, de")], [("Accept-Language", "EN, DE")],
     REUSED)
vary("value-case", "required", ["X-A"], [("X-A", "a")], [("X-A", "A")], {"miss"})
vary("empty", "check", [""], [("X-A", "a")], [("X-A", "A")], REUSED)
V = FRESH + [("Vary", "X-A")]
case(G, "two-variants", "optimal", step(V, send=[("X-A", "1")]), step(V, send=[("X-A", "2")], expect={"miss"}),
     step(V, send=[("X-A", "1")], expect=REUSED), cites="9111 4.1")
case(G, "then-none", "check", step(V, send=[("X-A", "1")]), step(FRESH, send=[("X-A", "2")], expect={"miss"}),
     step(FRESH, send=[("X-A", "3")], expect=REUSED))
case(G, "stale-variant", "required", step([DATE, ("Vary", "X-A")] + cc("max-age=1"), send=[("X-A", "1")], pause=3),
     step(V, send=[("X-A", "2")], expect={"miss"}), step(V, send=[("X-A", "1")], expect=NOT_REUSED), cites="9111 4")

# Request directives (5.2.1)
G = "request"


def requested(name: str, kind: str, directive: tuple[str, str], expect: set[str], fields: Fields = FRESH,
              pause: float = 0, cites: str = "9111 5.2.1", **more: Any) -> None:
    case(G, name, kind, step(fields, pause=pause), step(fields, send=[directive], expect=expect), cites=cites, **more)


CCQ = "Cache-Control"
requested("no-cache", "check", (CCQ, "no-cache"), NOT_REUSED)
requested("no-cache-upper", "check", (CCQ, "No-Cache"), NOT_REUSED)
requested("max-age-0", "check", (CCQ, "max-age=0"), NOT_REUSED, pause=2)
requested("max-age-1", "check", (CCQ, "max-age=1"), NOT_REUSED, pause=3)
requested("max-age-big", "optimal", (CCQ, "max-age=600"), REUSED)
requested("max-age-aged", "check", (CCQ, "max-age=600"), NOT_REUSED, fields=FRESH + [("Age", "1800")])
requested("min-fresh-met", "optimal", (CCQ, "min-fresh=10"), REUSED)
requested("min-fresh-not-met", "check", (CCQ, "min-fresh=7200"), NOT_REUSED)
requested("min-fresh-aged", "check", (CCQ, "min-fresh=3000"), NOT_REUSED, fields=FRESH + [("Age", "1800")])
STALE = [DATE] + cc("max-age=1")
requested("max-stale", "check", (CCQ, "max-stale=1000"), REUSED, fields=STALE, pause=3)
requested("max-stale-any", "check", (CCQ, "max-stale"), REUSED, fields=STALE, pause=3)
requested("max-stale-short", "required", (CCQ, "max-stale=1"), NOT_REUSED,
          fields=[DATE, ("Age", "100")] + cc("max-age=1"),
          cites="9111 4.2.4")
for directive in ("must-revalidate", "proxy-revalidate", "s-maxage=1", "no-cache"):
    requested(f"max-stale-{directive}", "required", (CCQ, "max-stale=1000"), NOT_REUSED,
              fields=[DATE] + cc(f"max-age=1, {directive}"), pause=3, cites="9111 4.2.4 MUST NOT",
              shared=True if directive in ("proxy-revalidate", "s-maxage=1") else None)
requested("only-if-cached", "optimal", (CCQ, "only-if-cached"), REUSED)
case(G, "only-if-cached-none", "check", step(FRESH, send=[(CCQ, "only-if-cached")], expect={"504"}),
     cites="9111 5.2.1.7 SHOULD")
case(G, "only-if-cached-stale", "check", step(STALE, pause=3),
     step(STALE, send=[(CCQ, "only-if-cached")], expect={"504"}),
     cites="9111 5.2.1.7 SHOULD")
requested("no-store-stored", "check", (CCQ, "no-store"), REUSED)
requested("pragma", "check", ("Pragma", "no-cache"), REUSED, cites="9111 5.4")
requested("no-cache-pragma", "check", ("Pragma", "foo"), REUSED)

# Stale answers (4.2.4), RFC 5861
G = "stale"
for how in ("close", "503"):
    down: dict[str, Any] = {"close": True} if how == "close" else {}
    status = 503 if how == "503" else 200
    failing = {"miss"} if how == "503" else ERROR
    case(G, f"{how}", "check", step(STALE + [("ETag", '"a"')], pause=3),
         step([DATE], status, expect={"stale", "hit"}, **down), cites="9111 4.2.4")
    for directive in ("must-revalidate", "proxy-revalidate", "s-maxage=1", "no-cache"):
        case(G, f"{how}-{directive}", "required", step([DATE, ("ETag", '"a"')] + cc(f"max-age=1, {directive}"),
                                                       pause=3),
             step([DATE], status, expect=failing, **down), cites="9111 4.2.4 MUST NOT",
             shared=True if directive in ("proxy-revalidate", "s-maxage=1") else None)
    case(G, f"{how}-stale-if-error", "optimal", step([DATE] + cc("max-age=1, stale-if-error=60"), pause=3),
         step([DATE], status, expect={"stale", "hit"}, **down), cites="5861 4")
    case(G, f"{how}-stale-if-error-over", "required" if how == "503" else "check",
         step([DATE, ("Age", "100")] + cc("max-age=1, stale-if-error=60")),
         step([DATE], status, expect=failing, **down), cites="5861 4 SHOULD NOT")
    case(G, f"{how}-stale-if-error-must-revalidate", "required",
         step([DATE] + cc("max-age=1, stale-if-error=60, must-revalidate"), pause=3),
         step([DATE], status, expect=failing, **down), cites="9111 5.2.2.2")
case(G, "swr", "optimal", step([DATE] + cc("max-age=1, stale-while-revalidate=60"), pause=3),
     step([DATE] + cc("max-age=1, stale-while-revalidate=60"), delay=1.5, expect={"swr"}), cites="5861 3")
case(G, "swr-over", "required", step([DATE, ("Age", "100")] + cc("max-age=1, stale-while-revalidate=60")),
     step(FRESH, delay=1.5, expect=NOT_REUSED), cites="5861 3 SHOULD NOT")
case(G, "swr-must-revalidate", "required", step([DATE] + cc("max-age=1, stale-while-revalidate=60, must-revalidate"),
                                                pause=3),
     step(FRESH, delay=1.5, expect=NOT_REUSED), cites="9111 5.2.2.2")
case(G, "swr-no-cache", "required", step([DATE] + cc("max-age=1, stale-while-revalidate=60, no-cache"), pause=3),
     step(FRESH, delay=1.5, expect=NOT_REUSED), cites="9111 5.2.2.4")
case(G, "must-revalidate-fresh", "optimal", step(FRESH + cc("must-revalidate")), step(FRESH, expect=REUSED))

# Validation (4.3)
G = "validate"
ETAG, WEAK = ("ETag", '"abc"'), ("ETag", 'W/"abc"')
case(G, "etag", "optimal", step([DATE, ETAG] + cc("max-age=1"), pause=3),
     step(FRESH + [ETAG], same=True, expect={"validated"}, sent={"if-none-match": '"abc"'}), cites="9111 4.3.1")
case(G, "etag-weak", "optimal", step([DATE, WEAK] + cc("max-age=1"), pause=3),
     step(FRESH + [WEAK], same=True, expect={"validated"}, sent={"if-none-match": 'W/"abc"'}))
case(G, "etag-no-cache", "optimal", step([DATE, ETAG] + cc("max-age=3600, no-cache")),
     step(FRESH + [ETAG], same=True, expect={"validated"}))
case(G, "last-modified", "optimal", step([DATE, LM] + cc("max-age=1"), pause=3),
     step(FRESH + [LM], same=True, expect={"validated"}), cites="9111 4.3.1")
case(G, "both", "optimal", step([DATE, ("Last-Modified", "Tue, 14 Nov 2023 22:13:20 GMT"), ETAG] + cc("max-age=1"),
                                pause=3),
     step(FRESH + [ETAG], same=True, expect={"validated"},
          sent={"if-none-match": '"abc"', "if-modified-since": "Tue, 14 Nov 2023 22:13:20 GMT"}), cites="9111 4.3.1")
case(G, "etag-unquoted", "check", step([DATE, ("ETag", "abc")] + cc("max-age=1"), pause=3),
     step(FRESH + [("ETag", "abc")], same=True, expect={"miss"}))
case(G, "etag-obs-text", "optimal", step([DATE, ("ETag", '"\xe9"')] + cc("max-age=1"), pause=3),
     step(FRESH + [("ETag", '"\xe9"')], same=True, expect={"validated"}, sent={"if-none-match": '"\xe9"'}),
     cites="9110 8.8.3")
case(G, "last-modified-rfc850", "check", step([DATE,
                                               ("Last-Modified", "Tuesday, 14-Nov-23 22:13:20 GMT")] + cc("max-age=1"),
                                               pause=3),
     step(FRESH, same=True, expect={"validated"}))
case(G, "changed", "required", step([DATE, ETAG] + cc("max-age=1"), pause=3),
     step(FRESH + [("ETag", '"new"')], expect={"miss"}), step(FRESH, expect={"hit"}), cites="9111 4.3.3")
case(G, "304-max-age", "optimal", step([DATE, ETAG] + cc("max-age=1"), pause=3),
     step(FRESH + [ETAG], same=True, expect={"validated"}), step(FRESH, expect=REUSED),
     cites="9111 4.3.4 (MUST update)")
case(G, "304-field", "required", step([DATE, ETAG, ("X-T", "old")] + cc("max-age=1"), pause=3),
     step(FRESH + [ETAG, ("X-T", "new")], same=True, expect={"validated"}, see={"x-t": "new"}),
     step(FRESH, expect=REUSED, see={"x-t": "new"}), cites="9111 3.2, 4.3.4")
case(G, "304-field-added", "required", step([DATE, ETAG] + cc("max-age=1"), pause=3),
     step(FRESH + [ETAG, ("X-T", "new")], same=True, expect={"validated"}, see={"x-t": "new"}),
     step(FRESH, expect=REUSED, see={"x-t": "new"}), cites="9111 3.2")
case(G, "304-content-type", "check", step([DATE, ETAG, ("Content-Type", "text/plain")] + cc("max-age=1"), pause=3),
     step(FRESH + [ETAG, ("Content-Type", "text/x-new")], same=True, expect={"validated"},
          see={"content-type": "text/x-new"}))
case(G, "304-content-length", "required", step([DATE, ETAG] + cc("max-age=1"), pause=3),
     step(FRESH + [ETAG, ("Content-Length", "3")], same=True, expect={"validated", "miss"},
          see={"content-length": "whole"}), cites="9111 3.2")
case(G, "304-connection", "required", step([DATE, ETAG, ("X-T", "old")] + cc("max-age=1"), pause=3),
     step(FRESH + [ETAG, ("Connection", "x-t"), ("X-T", "new")], same=True, expect={"validated"}, see={"x-t": "old"}),
     cites="9111 3.1, 3.2")
case(G, "304-kept-field", "required", step([DATE, ETAG, ("X-T", "old")] + cc("max-age=1"), pause=3),
     step(FRESH + [ETAG], same=True, expect={"validated"}, see={"x-t": "old"}), cites="9111 3.2")
# (a stored Age that stayed would leave the response as old as before)
case(G, "304-age", "optimal", step([DATE, ETAG, ("Age", "7200")] + cc("max-age=3600")),
     step(cc("max-age=3600") + [ETAG], same=True, expect={"validated"}), step(FRESH, expect=REUSED),
     cites="9111 4.2.3, 4.3.4")
case(G, "304-etag-other", "check", step([DATE, ETAG] + cc("max-age=1"), pause=3),
     step(FRESH + [("ETag", '"other"')], same=True, expect={"validated"}))


def conditional(name: str, kind: str, sent: tuple[str, str], expect: set[str]) -> None:
    fields = FRESH + [ETAG, LM]
    case(G, name, kind, step(fields), step(fields, send=[sent], expect=expect), cites="9111 4.3.2")


conditional("client-etag", "optimal", ("If-None-Match", '"abc"'), {"304"})
conditional("client-etag-weak", "optimal", ("If-None-Match", 'W/"abc"'), {"304"})
conditional("client-etag-list", "optimal", ("If-None-Match", '"x", "abc"'), {"304"})
conditional("client-etag-other", "optimal", ("If-None-Match", '"x"'), REUSED)
conditional("client-star", "check", ("If-None-Match", "*"), {"304"})
conditional("client-date", "optimal", ("If-Modified-Since", "{now}"), {"304"})
conditional("client-date-old", "optimal", ("If-Modified-Since", "Tue, 14 Nov 2000 22:13:20 GMT"), REUSED)
conditional("client-both", "required", ("If-None-Match", '"x"'), REUSED | {"miss"})
case(G, "client-both-other", "required", step(FRESH + [ETAG, LM]),
     step(FRESH + [ETAG, LM], send=[("If-None-Match", '"x"'), ("If-Modified-Since", "{now}")],
          expect=REUSED | {"miss"}),
     cites="9110 13.2.2: If-Modified-Since is ignored")

# Methods (4, 4.3.5, 4.4)
G = "method"
for method in ("POST", "PUT", "DELETE", "M-SEARCH"):
    case(G, f"{method}-invalidates", "required" if method != "M-SEARCH" else "check", step(FRESH),
         step(method=method, expect={"miss"}), step(FRESH, expect=NOT_REUSED), cites="9111 4.4 MUST")
    case(G, f"{method}-not-answered", "required", step(FRESH), step(FRESH, method=method, expect={"miss"}),
         cites="9111 4")
case(G, "POST-500-keeps", "check", step(FRESH), step([], 500, method="POST", expect={"miss"}),
     step(FRESH, expect=REUSED))
case(G, "POST-location", "check", step(FRESH), step([("Location", "{url}")], method="POST", query="?x",
                                                    expect={"miss"}),
     step(FRESH, expect=NOT_REUSED), cites="9111 4.4 MAY")
twice(G, "POST-fresh", "check", FRESH, {"miss"}, method="POST")
case(G, "HEAD-of-GET", "optimal", step(FRESH), step(FRESH, method="HEAD", expect=REUSED), cites="9110 9.3.2")
case(G, "GET-of-HEAD", "required", step(FRESH, method="HEAD"), step(FRESH, expect={"miss"}), cites="9111 4")
case(G, "OPTIONS-not-stored", "required", step(FRESH, method="OPTIONS"),
     step(FRESH, method="OPTIONS", expect={"miss"}), cites="9110 9.3.7")

# Parts (3.3, 3.4)
G = "partial"
RANGE = [("Range", "bytes=0-4")]
case(G, "range-of-whole", "optimal", step(FRESH + [ETAG]),
     step(FRESH, send=RANGE, expect={"hit"}, see={"content-range": "bytes 0-4/whole"}), cites="9110 14.2")
case(G, "suffix-of-whole", "optimal", step(FRESH + [ETAG]), step(FRESH, send=[("Range", "bytes=-5")], expect={"hit"}))
case(G, "if-range", "check", step(FRESH + [ETAG]), step(FRESH, send=RANGE + [("If-Range", '"abc"')], expect={"hit"}))
case(G, "if-range-other", "required", step(FRESH + [ETAG]),
     step(FRESH + [ETAG], send=RANGE + [("If-Range", '"x"')], expect={"hit", "miss"}, see={"content-range": None}),
     cites="9110 13.1.5 MUST ignore the Range")
case(G, "part-not-whole", "required", step(FRESH + [ETAG], 206, RANGE, partial=True),
     step(FRESH + [ETAG], expect={"miss"}), cites="9111 3.3, 4")
case(G, "part-again", "check", step(FRESH + [ETAG], 206, RANGE, partial=True),
     step(FRESH + [ETAG], 206, RANGE, partial=True, expect={"hit"}))
case(G, "part-other", "required", step(FRESH + [ETAG], 206, RANGE, partial=True),
     # `swr` here: the stored part with what the origin was asked for beside it, which 3.4 allows
     step(FRESH + [ETAG], 206, send=[("Range", "bytes=2-8")], partial=True, expect={"miss", "swr"}),
     cites="9111 3.3, 3.4")
case(G, "range-unit", "required", step(FRESH + [ETAG]),
     step(FRESH, send=[("Range", "items=0-1")], expect={"hit", "miss"}, see={"content-range": None}), cites="9110 14.2")

# Fields of a stored response (3.1)
G = "fields"
case(G, "connection", "required", step(FRESH + [("Connection", "x-hop"), ("X-Hop", "1")]),
     step(FRESH, expect=REUSED | {"miss"}, see={"x-hop": "none if hit"}), cites="9111 3.1 MUST NOT store")
for name in ("Keep-Alive", "Proxy-Connection", "Proxy-Authenticate"):
    case(G, name.lower(), "check", step(FRESH + [(name, "x")]),
         step(FRESH, expect=REUSED | {"miss"}, see={name.lower(): "none if hit"}), cites="9111 3.1")
case(G, "kept", "optimal", step(FRESH + [("X-A", "1"), ("Content-Language", "de")]),
     step(FRESH, expect=REUSED, see={"x-a": "1", "content-language": "de"}))

# What comes late on a kept connection (9112, 6.3 and 9.2): it answers no request, of this client or another
G = "late"
NEVER, OWN = [DATE] + cc("no-store"), {"miss"} | ERROR
AFTERWARDS = [step(NEVER, query=it, expect=OWN) for it in ("?1", "?2")]
for name, fields in (("stored", FRESH), ("not-stored", NEVER)):
    case(G, f"response-{name}", "required", step(fields, late=True, pause=1), *AFTERWARDS, cites="9112 9.2 SHOULD NOT")
case(G, "response-to-head", "required", step(NEVER, method="HEAD", late=True, pause=1), *AFTERWARDS, cites="9112 6.3")
case(G, "response-after-304", "required", step(cc("max-age=0") + [ETAG], same=True),
     step(cc("max-age=0") + [ETAG], same=True, late=True, pause=1), *AFTERWARDS, cites="9112 6.3")
