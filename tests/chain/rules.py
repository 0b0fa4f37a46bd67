"""What RFC 9110 and RFC 9111 say of one message or of a stored response and a request, in words of its own.

Where the text leaves a choice, these say what is permitted, and not what a cache should do.
"""
import re
from dataclasses import dataclass

from common.dates import valid_date
from common.fields import Fields, lines_of, members
from messages import Message, tokens

# RFC 9110, section 15.1
CACHEABLE_BY_DEFAULT = {200, 203, 204, 206, 300, 301, 308, 404, 405, 410, 414, 501}
SAFE = {"GET", "HEAD", "OPTIONS", "TRACE"}
# Fields about one connection: those of RFC 9110, section 7.6.1, and of RFC 9112, sections 6 and 9.
OF_CONNECTION = {"connection", "keep-alive", "proxy-connection", "te", "transfer-encoding", "upgrade"}
OF_PROXY = {"proxy-authenticate", "proxy-authorization", "proxy-authentication-info"}
TOKEN = r"[!#$%&'*+\-.^_`|~0-9A-Za-z]+"
DIRECTIVE = re.compile(rf'({TOKEN})(?:=({TOKEN}|"(?:[^"\\]|\\.)*"))?', re.DOTALL)


@dataclass
class Control:
    """The directives of a Cache-Control (section 5.2), and whether all members are by the grammar."""

    members: list[tuple[str, str | None]]
    is_sound: bool

    def has(self, name: str) -> bool:
        return any(it == name for it, _ in self.members)

    def is_bare(self, name: str) -> bool:
        """Whether a directive is there without field names."""
        return any(it == name and argument is None for it, argument in self.members)

    def named(self, name: str) -> set[str]:
        """The field names of a directive."""
        return {it for other, argument in self.members if other == name for it in tokens([argument or ""])}

    def seconds(self, name: str) -> int | None:
        """The greatest number that a directive may mean: one that isn't a number is 0, of several the first."""
        found = [argument for it, argument in self.members if it == name]
        if not found:
            return None
        return int(found[0]) if re.fullmatch("[0-9]+", found[0] or "") else 0


def control_of(lines: list[str]) -> Control:
    found, is_sound = [], True
    for text in (it for line in lines for it in members([line]) if it):
        part = DIRECTIVE.fullmatch(text)
        if part is None:
            is_sound = False
            continue
        argument = part[2]
        if argument and argument.startswith('"'):
            argument = re.sub(r"\\(.)", r"\1", argument[1:-1], flags=re.DOTALL)
        found.append((part[1].lower(), argument))
    return Control(found, is_sound)


def end_to_end(message: Message) -> Fields:
    """The fields that are for more than one connection, in order, with names in lower case."""
    if "fields" not in message.notes:
        gone = OF_CONNECTION | OF_PROXY | {"content-length"} | set(message.options())
        message.notes["fields"] = [(name.lower(), value) for name, value in message.fields if name.lower() not in gone]
    return message.notes["fields"]


def by_name(fields: Fields) -> dict[str, list[str]]:
    found: dict[str, list[str]] = {}
    for name, value in fields:
        found.setdefault(name, []).append(value)
    return found


def may_be_stored(method: str, request: Fields, status: int, response: Fields, is_shared: bool) -> str | None:
    """Why a cache may not store a response (section 3), or `None` if it may."""
    asked, told = control_of(lines_of(request, "cache-control")), control_of(lines_of(response, "cache-control"))
    if method not in ("GET", "HEAD"):
        return f"it answered {method}"
    if status < 200 or status in (206, 304):
        return f"its status is {status}"
    is_understood = told.has("must-understand") and status in CACHEABLE_BY_DEFAULT
    if told.has("must-understand") and not is_understood:
        return "its status isn't understood"
    if asked.has("no-store") or (told.has("no-store") and not is_understood):
        return "no-store"
    if is_shared and told.is_bare("private"):
        return "private"
    if is_shared and lines_of(request, "authorization"):
        if not (told.has("public") or told.has("must-revalidate") or told.has("s-maxage")):
            return "it answered a request with Authorization"
    is_marked = (told.has("public") or told.has("max-age") or bool(lines_of(response, "expires"))
                 or (is_shared and told.has("s-maxage")) or (not is_shared and told.has("private")))
    if not is_marked and status not in CACHEABLE_BY_DEFAULT:
        return "nothing says that it may be stored"
    return None


def date_of(fields: Fields, received: int) -> int:
    """When a response was made; when it came, if it doesn't say (RFC 9110, section 6.6.1)."""
    values = lines_of(fields, "date")
    found = valid_date(values[0], received) if len(values) == 1 else None
    return received if found is None else found


def lifetime(status: int, fields: Fields, received: int, is_shared: bool) -> int:
    """The greatest freshness lifetime (sections 4.2.1 and 4.2.2)."""
    told = control_of(lines_of(fields, "cache-control"))
    for name in ("s-maxage", "max-age") if is_shared else ("max-age",):
        if told.has(name):
            return told.seconds(name) or 0
    made = date_of(fields, received)
    if expires := lines_of(fields, "expires"):
        ends = valid_date(expires[0], received)
        return 0 if ends is None else max(0, ends - made)
    modified = lines_of(fields, "last-modified")
    if not modified or not (status in CACHEABLE_BY_DEFAULT or told.has("public")):
        return 0
    changed = valid_date(modified[0], received)
    return 0 if changed is None else max(0, made - changed) // 10


def age(fields: Fields, asked: int, received: int, now: int) -> int:
    """The current age (section 4.2.3)."""
    ages = [it.strip(" \t") for line in lines_of(fields, "age") for it in line.split(",")]
    value = int(ages[0]) if ages and re.fullmatch("[0-9]+", ages[0]) else 0
    apparent = max(0, received - date_of(fields, received))
    return max(apparent, value + received - asked) + now - received


@dataclass
class Use:
    """What counts for the use of a stored response: its age, and what happened to a request to the next server."""

    age: int
    is_asked: bool
    has_failed: bool


def may_be_used(request: Message, status: int, fields: Fields, received: int, is_shared: bool, use: Use) -> str | None:
    """Why a stored response may not be used without validation (sections 4, 4.2.4 and 5.2, RFC 5861), or `None`."""
    asked, told = control_of(request.lines("cache-control")), control_of(lines_of(fields, "cache-control"))
    fresh_for = lifetime(status, fields, received, is_shared)
    staleness = use.age - fresh_for
    if told.is_bare("no-cache"):
        return "the response has no-cache"
    if asked.is_sound:
        if asked.has("no-cache"):
            return "the request has no-cache"
        is_lenient = asked.has("max-stale")
        if (limit := asked.seconds("max-age")) is not None and use.age > limit and not (
                is_lenient or (use.has_failed and errors_allow(asked, told, staleness))):
            return f"the request wants an age of at most {limit}, not {use.age}"
        if (least := asked.seconds("min-fresh")) is not None and fresh_for < use.age + least and not (
                use.has_failed and errors_allow(asked, told, staleness)):
            return f"the request wants {least} more seconds of freshness"
    if staleness < 0:
        return None
    if told.has("must-revalidate") or (is_shared and (told.has("proxy-revalidate") or told.has("s-maxage"))):
        return f"it is stale by {staleness}, and must be validated then"
    if asked.has("max-stale"):
        argument = next(it for name, it in asked.members if name == "max-stale")
        if argument is None or staleness <= (asked.seconds("max-stale") or 0):
            return None
    within = told.seconds("stale-while-revalidate")
    if within is not None and staleness <= within:
        return None if use.is_asked else "it is stale, and isn't revalidated meanwhile"
    if use.has_failed and errors_allow(asked, told, staleness):
        return None
    return f"it is stale by {staleness}, and nothing allows that"


def errors_allow(asked: Control, told: Control, staleness: int) -> bool:
    return any(limit is not None and staleness <= limit
               for limit in (asked.seconds("stale-if-error"), told.seconds("stale-if-error")))


LISTS = {"accept", "accept-charset", "accept-encoding", "accept-language", "cache-control", "if-match",
         "if-none-match", "via"}


def varies(names: list[str], before: Fields, now: Fields) -> str | None:
    """Which field of Vary differs between two requests (section 4.1), or `None`."""
    for name in names:
        if name == "*":
            return "*"
        one, other = lines_of(before, name), lines_of(now, name)
        if bool(one) != bool(other) or normal(name, one) != normal(name, other):
            return name
    return None


def normal(name: str, lines: list[str]) -> list[str]:
    """Lines of one field joined. In a list known as such, white space and empty members don't count, nor does case
    in the names of codings and languages (RFC 9110, sections 8.4.1 and 12.5.4)."""
    if name not in LISTS:
        return [", ".join(lines)]
    found = [it for it in members(lines) if it]
    return [it.lower() for it in found] if name in ("accept-encoding", "accept-language") else found


def opaque(tag: str) -> str:
    return tag.removeprefix("W/")


def is_not_modified(request: Message, fields: Fields, received: int) -> bool:
    """Whether the client's own validators are those of a response (RFC 9110, sections 13.1.2 and 13.1.3)."""
    if wanted := request.lines("if-none-match"):
        tags = [it for it in members(wanted, has_escapes=False) if it]
        own = lines_of(fields, "etag")
        return tags == ["*"] or (bool(own) and opaque(own[0]) in map(opaque, tags))
    since = [valid_date(it, received) for it in request.lines("if-modified-since")]
    modified = [valid_date(it, received) for it in lines_of(fields, "last-modified")] or [date_of(fields, received)]
    return len(since) == 1 and None not in (since[0], modified[0]) and modified[0] <= since[0]


# What a part of several costs at least: a boundary and two fields.
OVERHEAD = 80


def part_of(request: Message, fields: Fields, length: int) -> tuple[int, int] | None:
    """The first and the last byte of the part that is asked for, if If-Range lets it count (RFC 9110, section 14.1.2).
    Several may be joined to one, if the gaps are shorter than what parts cost (section 15.3.7.2)."""
    found = re.fullmatch(r"bytes=([\d, -]+)", ", ".join(request.lines("range")), re.IGNORECASE)
    if not found:
        return None
    if condition := request.lines("if-range"):
        if condition[0] not in lines_of(fields, "etag") + lines_of(fields, "last-modified"):
            return None
        if condition[0].startswith("W/"):
            return None
    parts = [it for text in tokens([found[1]]) if (it := one_part(text, length))]
    parts.sort()
    if any(after[0] - before[1] > OVERHEAD for before, after in zip(parts, parts[1:], strict=False)):
        return None
    return (parts[0][0], max(last for _, last in parts)) if parts else None


def one_part(text: str, length: int) -> tuple[int, int] | None:
    first, _, last = text.partition("-")
    if not first:
        return (max(0, length - int(last)), length - 1) if length and int(last or 0) else None
    begin, end = int(first), min(length - 1, int(last or length))
    return (begin, end) if begin <= end else None
