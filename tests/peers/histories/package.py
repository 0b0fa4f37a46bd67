"""The steps of passes by the package for Python. Its replies are whole messages, so they are judged as such: status,
fields and content (RFC 9110, sections 14.4, 15.3.7, 15.4.5 and 15.5.17; RFC 9111, sections 4 and 5.1)."""
from collections.abc import Iterator
from typing import Any

from common import products
from common.fields import Fields, lines_of, section
from common.passing import end
from histories.passes import GUESS, PassPlayer
from histories.writing import Call, Told

# What a 206 and a 304 have if the 200 would have it, and what they say of the content.
NEEDED = ("cache-control", "content-location", "date", "etag", "expires", "vary")
OF_CONTENT = ("content-length", "content-range")
STATUSES = {"part": 206, "not_modified": 304, "unsatisfiable": 416}
# Names for what is no reply, by what a step returns.
WORDS: dict[object, str] = {None: "(none)", True: "stored", False: "unstored"}


class Package:
    """A cache of the package with the options of a player, and the passes through it."""

    def __init__(self, player: PassPlayer) -> None:
        self.headers = products.library()
        own = player.cache
        self.cache = self.headers.Cache(
            shared=own.is_shared, variants=own.variants, responses=own.responses, guess=GUESS,
            immutable=own.is_immutable, targets=own.targeted)
        self.passes: dict[str, Any] = {}
        self.methods: dict[str, str] = {}

    def step(self, name: str, key: str, now: int, *given: Any) -> Any:
        """What a step of a pass returns, or the text `out_of_order`."""
        if name == "begin":
            target, request = given
            self.methods[key] = request.method
            self.passes[key] = self.cache.begin(request.method, target, section(request.fields), now=now)
            return self.passes[key].step
        if name == "validation":
            self.methods[key] = self.methods[given[0]]
            self.passes[key] = self.passes[given[0]].validation(now=now)
            return self.passes[key] and self.passes[key].step
        if name == "remove":
            return self.cache.remove(key)
        it = self.passes[key]
        try:
            if name == "came":
                status, fields = given
                return it.came(status, section(fields), now=now)
            if name == "failed":
                return it.failed(now=now)
            if name == "ended":
                content, is_complete = given
                return end(it, content.encode("latin-1"), is_complete, now)
            return it.close()
        except self.headers.OutOfOrder:
            return "out_of_order"

    def shown(self, found: Any, call: Call) -> str:
        """What a step returned, as the answer of the call that it is, or else as it is."""
        headers = self.headers
        if isinstance(found, headers.Reply):
            faults = []
            for told in call.told:
                fault = fault_of(found, told, self.methods[call.given[1]])
                if fault is None:
                    return told.row()
                faults.append(fault)
            return f"{found} ({'; '.join(faults)})"
        if isinstance(found, headers.Ask):
            if found.fields is None:
                return "ask"
            # (the request of a validation has no conditions but these)
            own = tuple(it for it in found.fields if it[0].startswith("if-") or it[0] not in found.alone)
            wanted = [it for it in call.told if tuple(field for field in it.conditions if field[1] is not None) == own
                      and it.word == "validate"]
            return wanted[0].row() if wanted else "ask" if found.alone and not own else f"validate {found.fields}"
        if isinstance(found, headers.PassOn):
            return "keep" if found.stores else "pass_on"
        return WORDS.get(found, str(found))


def fault_of(reply: Any, told: Told, method: str) -> str | None:
    """What of a reply isn't as it is told."""
    if told.word == "unavailable":
        return None if reply.status == 504 else f"{reply.status} for 504"
    if told.stored is None:
        return f"a reply for {told.word}"
    if reply.validates != (told.word == "reply_and_validate"):
        return f"it validates: {reply.validates}"
    stored, (kind, *positions) = told.stored, told.way.split(" ")
    status = STATUSES.get(kind, stored.status)
    if reply.status != status:
        return f"{reply.status} for {status}"
    content = stored.content.encode("latin-1")
    if kind == "part":
        if len(positions) > 1:
            return "several parts"
        first, last = map(int, positions[0].split("-"))
        content = content[first : last + 1]
    content = b"" if kind in ("not_modified", "unsatisfiable") or method == "HEAD" else content
    if (reply.content or b"") != content:
        return f"the content {reply.content!r} for {content!r}"
    if content == b"" and reply.content is not None and (method == "HEAD" or status == 304):
        return "content"
    return fault_of_fields(list(reply.fields), told, kind, positions, len(content))


def fault_of_fields(fields: Fields, told: Told, kind: str, positions: list[str], length: int) -> str | None:
    stored = told.stored
    assert stored is not None
    whole = len(stored.content)
    if kind == "unsatisfiable":
        is_right = lines_of(fields, "content-range") == [f"bytes */{whole}"] and lines_of(fields, "content-length") == ["0"]
        return None if is_right else "another Content-Range or Content-Length"
    if lines_of(fields, "age") != [str(told.age)]:
        return f"Age {lines_of(fields, 'age')} for {told.age}"
    if kind == "part" and (lines_of(fields, "content-range"), lines_of(fields, "content-length")) != (
            [f"bytes {positions[0]}/{whole}"], [str(length)]):
        return "another Content-Range or Content-Length"
    own = {"age"} if kind == "whole" else {"age", *OF_CONTENT}
    for name in dict.fromkeys(name.lower() for name, _ in [*stored.fields, *fields]):
        if name in own:
            continue
        given, wanted = lines_of(fields, name), lines_of(stored.fields, name)
        if given != wanted and (given or kind == "whole" or name in NEEDED):
            return f"{name}: {given} for {wanted}"
    return None


def play(player: PassPlayer) -> Iterator[tuple[Call, str]]:
    """The calls of a history, each with what the package answers."""
    package = Package(player)
    with package.cache:
        for call in player.calls:
            name, key, now, *given = call.given
            yield call, package.shown(package.step(name, key, now, *given), call)
