"""Times usual calls of the Python package beside those of Werkzeug, Django and the standard library.

    speed.py

Prints a table: microseconds of this process for a call, the least of a hundred runs of all calls, and ours as a
multiple of the other's. A framework that isn't there is left out.
"""
import email.utils
import http.cookies
import importlib
import time
import timeit
from collections.abc import Callable
from datetime import datetime, timezone
from typing import Any

import typed_headers as ours

RUNS, CALLS = 100, 300
DATE = "Sun, 06 Nov 1994 08:49:37 GMT"
TIME = datetime(1994, 11, 6, 8, 49, 37, tzinfo=timezone.utc)
CONDITION = {"REQUEST_METHOD": "GET", "HTTP_IF_NONE_MATCH": '"a"'}
TARGET = ours.Target('"a"')
BASIC, BEARER = "Basic QWxhZGRpbjpvcGVuIHNlc2FtZQ==", "Bearer mF_9.B5f-4.1JqM"
COOKIES = "SID=31d4d96e407aad42; lang=en-US; theme=dark"
DIRECTIVES = "no-cache, max-age=60, private"
TYPES, OFFERED_TYPES = "text/html, application/xml;q=0.9, */*;q=0.8", ["text/plain", "application/xml", "text/html"]
LANGUAGES, OFFERED_LANGUAGES = "da, en-gb;q=0.8, en;q=0.7", ["en-US", "en-GB", "de"]
CODINGS, OFFERED_CODINGS = "gzip, deflate, br;q=0.9", ["br", "gzip", "identity"]
CHALLENGE = 'Digest realm="b", nonce="c", qop="auth"'
DISPOSITION = 'attachment; filename="a b.txt"'
FIELDS = {
    "Content-Type": "text/html; charset=utf-8",
    "Content-Length": "42",
    "ETag": '"a"',
    "Cache-Control": "no-cache, max-age=60",
    "Vary": "Accept",
    "Date": DATE,
}

Call = Callable[[], object]
#: What is called, what it is beside, our call and theirs.
Row = tuple[str, str, Call, Call]


def micros(rows: list[Row]) -> list[list[float]]:
    """The times of the calls of each row. Each run has all of them: a slow while of the machine is no row's own."""
    found = [[float("inf"), float("inf")] for _ in rows]
    for _ in range(RUNS):
        for times, (_, _, *calls) in zip(found, rows):
            for place, call in enumerate(calls):
                taken = timeit.timeit(call, number=CALLS, timer=time.process_time) / CALLS * 1e6
                times[place] = min(times[place], taken)
    return found


def other(name: str) -> Any:
    try:
        return importlib.import_module(name)
    except ImportError:
        return None


def beside_library() -> list[Row]:
    return [
        ("`date(line)`", "email", lambda: ours.date(DATE), lambda: email.utils.parsedate_to_datetime(DATE)),
        ("`format_date(time)`", "email", lambda: ours.format_date(TIME),
         lambda: email.utils.format_datetime(TIME, usegmt=True)),
        ("`Cookie.parse(line)`", "http.cookies", lambda: ours.Cookie.parse(COOKIES),
         lambda: http.cookies.SimpleCookie(COOKIES)),
    ]


def beside_werkzeug(it: Any, kinds: Any) -> list[Row]:
    headers, theirs = ours.Headers(FIELDS), kinds.Headers(FIELDS)
    given = ours.CacheControl(max_age=60, public=True), it.parse_cache_control_header("max-age=60, public")
    rows: list[tuple[str, Call, Call]] = [
        ("`date(line)`", lambda: ours.date(DATE), lambda: it.parse_date(DATE)),
        ("`format_date(time)`", lambda: ours.format_date(TIME), lambda: it.http_date(TIME)),
        ("`age(line)`", lambda: ours.age("7"), lambda: it.parse_age("7")),
        ("`Age.parse(line)`", lambda: ours.Age.parse("7"), lambda: it.parse_age("7")),
        ("`Date.parse(line)`", lambda: ours.Date.parse(DATE), lambda: it.parse_date(DATE)),
        ("`Vary.parse(line)`", lambda: ours.Vary.parse("Accept, Origin"),
         lambda: it.parse_set_header("Accept, Origin")),
        ("`members(line)`", lambda: ours.members("Accept, Origin"), lambda: it.parse_list_header("Accept, Origin")),
        ("`CacheControl.parse(line)`", lambda: ours.CacheControl.parse(DIRECTIVES),
         lambda: it.parse_cache_control_header(DIRECTIVES)),
        ("`str(CacheControl)`", lambda: str(given[0]), lambda: given[1].to_header()),
        ("`Challenge.parse_all(line)`", lambda: ours.Challenge.parse_all(CHALLENGE),
         lambda: kinds.WWWAuthenticate.from_header(CHALLENGE)),
        ("`ContentDisposition.parse(line)`", lambda: ours.ContentDisposition.parse(DISPOSITION),
         lambda: it.parse_options_header(DISPOSITION)),
        ("`ContentRange.parse(line)`", lambda: ours.ContentRange.parse("bytes 0-4/10"),
         lambda: it.parse_content_range_header("bytes 0-4/10")),
        ("`Cookie.parse(line)`", lambda: ours.Cookie.parse(COOKIES), lambda: it.parse_cookie(COOKIES)),
        ("`Credentials.parse(line)` of Basic", lambda: ours.Credentials.parse(BASIC),
         lambda: kinds.Authorization.from_header(BASIC)),
        ("`Credentials.parse(line)` of Bearer", lambda: ours.Credentials.parse(BEARER),
         lambda: kinds.Authorization.from_header(BEARER)),
        ("`ETag.parse(line)`", lambda: ours.ETag.parse('W/"abc"'), lambda: it.unquote_etag('W/"abc"')),
        ("`ETags.parse(line)`", lambda: ours.ETags.parse('"a", W/"b"'), lambda: it.parse_etags('"a", W/"b"')),
        ("`MediaType.parse(line)`", lambda: ours.MediaType.parse("text/html; charset=utf-8"),
         lambda: it.parse_options_header("text/html; charset=utf-8")),
        ("`Range.parse(line).satisfiable(n)`", lambda: ours.Range.parse("bytes=0-499").satisfiable(1000),
         lambda: it.parse_range_header("bytes=0-499").range_for_length(1000)),
        ("`Accept.parse(line)`", lambda: ours.Accept.parse(TYPES),
         lambda: it.parse_accept_header(TYPES, kinds.MIMEAccept)),
        ("`choose_type(..)`", lambda: ours.choose_type({"Accept": TYPES}, OFFERED_TYPES),
         lambda: it.parse_accept_header(TYPES, kinds.MIMEAccept).best_match(OFFERED_TYPES)),
        ("`choose_coding(..)`", lambda: ours.choose_coding({"Accept-Encoding": CODINGS}, OFFERED_CODINGS),
         lambda: it.parse_accept_header(CODINGS).best_match(OFFERED_CODINGS)),
        ("`choose_language(..)`", lambda: ours.choose_language({"Accept-Language": LANGUAGES}, OFFERED_LANGUAGES),
         lambda: it.parse_accept_header(LANGUAGES, kinds.LanguageAccept).best_match(OFFERED_LANGUAGES)),
        ("`evaluate(..)`", lambda: ours.evaluate("GET", {"If-None-Match": '"a"'}, TARGET),
         lambda: it.is_resource_modified(CONDITION, etag="a")),
        ("`Headers(six)[name]`", lambda: ours.Headers(FIELDS)["etag"], lambda: kinds.Headers(FIELDS)["etag"]),
        ("`headers[name]`", lambda: headers["etag"], lambda: theirs["etag"]),
        ("`headers[name] = value`", lambda: headers.__setitem__("etag", '"b"'),
         lambda: theirs.__setitem__("etag", '"b"')),
    ]
    return [(title, "werkzeug", mine, call) for title, mine, call in rows]


def beside_django(it: Any, cookies: Any) -> list[Row]:
    rows: list[tuple[str, Call, Call]] = [
        ("`date(line)`", lambda: ours.date(DATE), lambda: it.parse_http_date(DATE)),
        ("`format_date(seconds)`", lambda: ours.format_date(784111777), lambda: it.http_date(784111777)),
        ("`Cookie.parse(line)`", lambda: ours.Cookie.parse(COOKIES), lambda: cookies.parse_cookie(COOKIES)),
        ("`ETags.parse(line)`", lambda: ours.ETags.parse('"a", W/"b"'), lambda: it.parse_etags('"a", W/"b"')),
    ]
    return [(title, "django", mine, call) for title, mine, call in rows]


def main() -> None:
    rows = beside_library()
    if other("werkzeug"):
        rows += beside_werkzeug(other("werkzeug.http"), other("werkzeug.datastructures"))
    if other("django"):
        rows += beside_django(other("django.utils.http"), other("django.http.cookie"))
    found = [(times, title, name) for times, (title, name, _, _) in zip(micros(rows), rows)]
    print("| Call | beside | ours | theirs | ours / theirs |\n|---|---|---:|---:|---:|")
    for (mine, theirs), title, name in sorted(found, key=lambda it: it[0][0] / it[0][1]):
        print(f"| {title} | {name} | {mine:.2f} | {theirs:.2f} | {mine / theirs:.2f} |")


if __name__ == "__main__":
    main()
