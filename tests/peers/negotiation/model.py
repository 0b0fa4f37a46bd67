"""RFC 9110, section 12.5, and RFC 4647, sections 3.3.1 and 3.4, as a second reading of their text: the qualities that
an offer may have by a field, in thousandths, over the readings that the text leaves open."""
import contextlib
import itertools
import math
import re
from collections.abc import Iterator

from common.fields import members

TOKEN = r"[!#$%&'*+\-.^_`|~0-9A-Za-z]+"
QUOTED = r'"(?:[\t !\x23-\x5b\x5d-\x7e\x80-\xff]|\\[\t \x21-\x7e\x80-\xff])*"'
# parameters = *( OWS ";" OWS [ parameter ] ) (section 5.6.6)
PARAMETER = re.compile(rf"[ \t]*;[ \t]*(?:({TOKEN})=({TOKEN}|{QUOTED}))?")
QVALUE = re.compile(r"0(\.[0-9]{0,3})?|1(\.0{0,3})?")
MEDIA_RANGE = re.compile(rf"(\*/\*|{TOKEN}/\*|{TOKEN}/{TOKEN})(?=[ \t]*(;|$))")
# Quoted-strings, whatever bytes they have.
QUOTES = re.compile(r'"(?:[^"\\]|\\.)*"', re.DOTALL)
# An element is a name and a weight (section 12.4.2).
WEIGHT = rf"(?:[ \t]*;[ \t]*[qQ]=({QVALUE.pattern}))?"
CODING = re.compile(rf"({TOKEN}){WEIGHT}")
LANGUAGE_RANGE = re.compile(rf"([A-Za-z]{{1,8}}(?:-[A-Za-z0-9]{{1,8}})*|\*){WEIGHT}")
# What an element begins with, also if the rest breaks its grammar.
BEGINNINGS = {"accept": MEDIA_RANGE, "encoding": re.compile(rf"({TOKEN})(?=[ \t]*(;|$))"),
              "language": re.compile(r"([A-Za-z]{1,8}(?:-[A-Za-z0-9]{1,8})*|\*)(?=[ \t]*(;|$))")}
# Codings that a recipient SHOULD take for the same (sections 8.4.1.1 and 8.4.1.3).
SAME = {"gzip": "x-gzip", "x-gzip": "gzip", "compress": "x-compress", "x-compress": "compress"}

Parameters = list[tuple[str, str]]
# A range, its parameters, and its weight.
Element = tuple[str, Parameters, int]
# What may be behind a quote that stays open.
ANYTHING: dict[str, Element | None] = {"accept": ("*/*", [], 1), "encoding": None, "language": ("*", [], 1)}
# As many combinations of the readings of malformed elements are tried.
MOST_READINGS = 300


class Malformed(Exception):
    """An element that breaks its grammar, for which the text has no rule."""


def elements(lines: list[str]) -> list[str]:
    return [it for it in members(lines) if it]


def lower(text: str) -> str:
    """The text with ASCII letters in lower case."""
    return text.encode("latin-1").lower().decode("latin-1")


def parameters(text: str) -> Parameters:
    """The parameters with names in lower case. Their values are compared without case, as those of `charset` are."""
    found, place = [], 0
    while place < len(text):
        part = PARAMETER.match(text, place)
        if not part or part.end() == place:
            raise Malformed(text)
        if part[1]:
            name, value = part[1].lower(), part[2]
            if value.startswith('"'):
                if name == "q":  # a weight is no quoted-string (section 12.4.2)
                    raise Malformed(text)
                value = re.sub(r"\\(.)", r"\1", value[1:-1], flags=re.DOTALL)
            found.append((name, lower(value)))
        place = part.end()
    return found


def weighted(found: Parameters) -> tuple[Parameters, int]:
    """The parameters without the weight, and the weight in thousandths."""
    weights = [value for name, value in found if name == "q"]
    if len(weights) > 1 or (weights and not QVALUE.fullmatch(weights[0])):
        raise Malformed(str(weights))
    weight = round(float(weights[0]) * 1000) if weights else 1000
    return [it for it in found if it[0] != "q"], weight


def media(text: str) -> tuple[str, Parameters]:
    """The names of a media range in lower case, and its parameters."""
    found = MEDIA_RANGE.match(text)
    if not found or (found[1] != "*/*" and "*" in found[1].removesuffix("/*")):
        raise Malformed(text)
    return found[1].lower(), parameters(text[found.end(1) :])


def named(pattern: re.Pattern[str], text: str) -> tuple[str, int]:
    """A coding or a language range in lower case, and its weight."""
    found = pattern.fullmatch(text)
    if not found:
        raise Malformed(text)
    return found[1].lower(), round(float(found[2] or 1) * 1000)


def element_of(dimension: str, text: str) -> Element:
    if dimension == "accept":
        name, found = media(text)
        return name, *weighted(found)
    name, weight = named(CODING if dimension == "encoding" else LANGUAGE_RANGE, text)
    return name, [], weight


def readings(dimension: str, text: str) -> list[Element | None]:
    """The readings of an element that may break its grammar; `None` if it counts for nothing.

    The text has no rule for that, so this is the choice of the page of `decide_negotiation`: what is malformed accepts
    less, and excludes nothing. With a malformed weight or parameter an element has some weight above 0, and its other
    parameters; with a weight of 0 it counts for nothing. What is no range matches nothing. Behind a quote that stays
    open may be any type or language, so each is taken, below all that are named; but a coding that isn't named may be
    one that the client can't decode.
    """
    if '"' in re.sub(QUOTES, "", text):
        return [ANYTHING[dimension]]
    try:
        return [element_of(dimension, text)]
    except Malformed:
        pass
    # Choice: an empty parameter is none (section 5.6.6), in each field.
    emptied: list[Element | None] = []
    if '"' not in text:
        with contextlib.suppress(Malformed):
            emptied = [element_of(dimension, re.sub(r";[ \t]*(?=;|$)", "", text))]
    found = BEGINNINGS[dimension].match(text)
    if not found or (dimension == "accept" and found[1] != "*/*" and "*" in found[1].removesuffix("/*")):
        return [*emptied, None]
    good: Parameters = []
    weights = []
    for piece in re.findall(rf';((?:[^;"]|{QUOTES.pattern})*)', text[found.end(1):], re.DOTALL):
        if piece.partition("=")[0].strip(" \t").lower() == "q":
            weights.append(piece.strip(" \t").partition("=")[2])
            continue
        try:
            good += parameters(";" + piece)
        except Malformed:
            pass
    some: list[Element | None] = [(found[1].lower(), good if dimension == "accept" else [], it) for it in (1, 1000)]
    if len(weights) > 1:
        return [*emptied, None, *some]
    return [*emptied, *([None] if weights and re.fullmatch(r"0(\.0{0,3})?", weights[0]) else some)]


def media_qualities(ranges: list[Element], offers: list[str]) -> Iterator[set[int]]:
    for offer in offers:
        kind, owned = media(offer)
        said: dict[tuple[int, int], set[int]] = {}
        for name, wanted, weight in ranges:
            names = 0 if name == "*/*" else 1 if name.endswith("/*") else 2
            if (names == 2 and name != kind) or (names == 1 and not kind.startswith(name[:-1])):
                continue
            if all(it in owned for it in wanted):
                said.setdefault((names, len(wanted)), set()).add(weight)
        yield said[max(said)] if said else {0}


def coding_qualities(elements: list[Element], offers: list[str]) -> Iterator[set[int]]:
    listed: dict[str, set[int]] = {}
    for name, _, weight in elements:
        listed.setdefault(name, set()).add(weight)
    for offer in map(str.lower, offers):
        same = SAME.get(offer, "")
        if offer in listed:
            # (if both names are listed, either may count)
            yield listed[offer] | listed.get(same, set())
        elif same in listed:
            yield listed[same]
        elif "*" in listed:
            # That `*;q=0` excludes identity is said, but not whether another `*` gives it its weight.
            yield listed["*"] | ({1} if offer == "identity" and listed["*"] != {0} else set())
        else:
            yield {1} if offer == "identity" else {0}


def language_qualities(ranges: list[Element], offers: list[str]) -> Iterator[set[int]]:
    """By basic filtering (RFC 4647, section 3.3.1), if the longest range that matches decides."""
    return (said[max(said)] if said else {0} for said in said_of_languages(ranges, offers))


def loose_language_qualities(ranges: list[Element], offers: list[str]) -> Iterator[set[int]]:
    """The same, if any range that matches may decide: RFC 9110 doesn't say which."""
    return (set().union(*said.values()) or {0} for said in said_of_languages(ranges, offers))


def said_of_languages(ranges: list[Element], offers: list[str]) -> Iterator[dict[int, set[int]]]:
    """Of each offer the weights of the ranges that match, by the lengths of the ranges."""
    for offer in map(str.lower, offers):
        said: dict[int, set[int]] = {}
        for name, _, weight in ranges:
            if name == "*":
                said.setdefault(0, set()).add(weight)
            elif offer == name or offer.startswith(name + "-"):
                said.setdefault(len(name), set()).add(weight)
        yield said


BY_FIELD = {"accept": media_qualities, "encoding": coding_qualities, "language": language_qualities}
LOOSE = BY_FIELD | {"language": loose_language_qualities}


def qualities(dimension: str, lines: list[str], offers: list[str], is_loose: bool = False) -> list[set[int]] | None:
    """Of each offer the set of its qualities, or `None` if the text has no rule, and the page makes no choice, for an
    element that breaks its grammar. With `is_loose` also by readings that ours doesn't take, and without its choice."""
    if not lines:
        return [{1000} for _ in offers]
    try:
        if is_loose:
            return list(LOOSE[dimension]([element_of(dimension, it) for it in elements(lines)], offers))
        # (a quote that stays open ends with its field line)
        every = [readings(dimension, it) for line in lines for it in elements([line])]
    except Malformed:
        return None
    if math.prod(map(len, every)) > MOST_READINGS:
        return None
    found: list[set[int]] = [set() for _ in offers]
    for chosen in itertools.product(*every):
        for own, more in zip(found, BY_FIELD[dimension]([it for it in chosen if it is not None], offers)):
            own |= more
    return found


def is_lookup(lines: list[str], offer: str) -> bool:
    """Whether some range that isn't excluded finds the tag by lookup (RFC 4647, section 3.4): the tag is the range
    without its last subtags."""
    found = [named(LANGUAGE_RANGE, it) for it in elements(lines)]
    return any(weight and name.startswith(offer.lower() + "-") for name, weight in found)


def best(found: list[set[int]]) -> set[int | None]:
    """The places of the offers that may be the best; `None` if it may be that no offer is acceptable."""
    places: set[int | None] = set()
    for place, own in enumerate(found):
        others = [min(it) for other, it in enumerate(found) if other != place]
        if max(own) > 0 and all(max(own) >= it for it in others):
            places.add(place)
    if all(0 in it for it in found):
        places.add(None)
    return places
