"""Content negotiation: which of a server's offers a client prefers (RFC 9110, section 12.5)."""

from dataclasses import dataclass
from typing import List, NoReturn, Optional, Sequence, Tuple

from . import _library
from ._checks import check_members
from ._library import Text, made
from .errors import HeaderError
from .headers import Headers, HeadersLike, Section

__all__ = [
    "Quality",
    "choose_coding",
    "choose_language",
    "choose_type",
    "coding_quality",
    "language_quality",
    "look_up_language",
    "type_quality",
]

#: What is negotiated. The last is a language, too, which lookup finds.
TYPE, CODING, LANGUAGE, LOOK_UP = range(4)
_FIELDS = ("accept", "accept-encoding", "accept-language", "accept-language")
_CHOICES = (
    _library.calls.choose_type,
    _library.calls.choose_coding,
    _library.calls.choose_language,
    _library.calls.look_up_language,
)
_CHOICES_OF_SECTION = (
    _library.calls.section_choose_type,
    _library.calls.section_choose_coding,
    _library.calls.section_choose_language,
)
_QUALITIES = (_library.calls.type_quality, _library.calls.coding_quality, _library.calls.language_quality)


@dataclass(frozen=True)
class Quality:
    """How acceptable an offer is to a client."""

    #: The weight in thousandths, 1 to 1000. 0 if the offer isn't acceptable, or no element of the field names it.
    weight: int
    is_acceptable: bool

    def __post_init__(self) -> None:
        check_members(self)


def _lines(dimension: int, request: HeadersLike) -> Sequence[Text]:
    return Headers(request).lines(_FIELDS[dimension])


def _reject(dimension: int, lines: Sequence[Text], offers: List[bytes]) -> NoReturn:
    for line in offers:
        if not _library.is_value(line):
            raise HeaderError(f"offers: {_library.to_str(line)!r} has a byte that no field value has")
    name = _FIELDS[dimension]
    raise _library.rejected(name, _library.to_lines(name, lines), "a field line has a byte that no field value has")


def _joined(offers: Tuple[str, ...]) -> bytes:
    """The offers as lines of one text."""
    try:
        text = "\n".join(offers).encode("latin-1")
    except (TypeError, UnicodeEncodeError):
        return _library.joined(_library.to_lines("offers", offers))
    if text.count(b"\n") >= len(offers) or b"\r" in text:
        return _library.joined(_library.to_lines("offers", offers))
    return text + b"\n"


def choose_by(dimension: int, lines: Tuple[Text, ...], offers: Sequence[str]) -> Optional[str]:
    """The offer that is chosen by the lines of the dimension's field."""
    offered = tuple(offers)
    status, place = _CHOICES[dimension](lines, _joined(offered))
    if not status:
        return offered[place]
    _library.check(status, lambda: _reject(dimension, lines, _library.to_lines("offers", offered)))
    return None


def _choose(dimension: int, request: HeadersLike, offers: Sequence[str]) -> Optional[str]:
    if type(request) is dict or not isinstance(request, Section) or dimension == LOOK_UP:
        return choose_by(dimension, tuple(_lines(dimension, request)), offers)
    offered = tuple(offers)
    status, place = _CHOICES_OF_SECTION[dimension](request._handle, _joined(offered))
    _library.check(status, lambda: _reject(dimension, (), _library.to_lines("offers", offered)))
    return None if status == _library.ABSENT else offered[place]


def rate_by(dimension: int, request: HeadersLike, offer: Text) -> Quality:
    """How acceptable an offer is by the field of a dimension."""
    lines, text = tuple(_lines(dimension, request)), _library.to_bytes(offer, "offer")
    status, (weight, is_acceptable) = _QUALITIES[dimension](lines, text)
    _library.check(status, lambda: _reject(dimension, lines, []))
    return made(Quality, weight=weight, is_acceptable=is_acceptable == 1)


def choose_type(request: HeadersLike, offers: Sequence[str]) -> Optional[str]:
    """The media type that a request is served, by its `Accept` (RFC 9110, section 12.5.1).

    The offers are a server's media types with their parameters, the most wanted first. Of those of the greatest quality
    the first is chosen, and without the field the first of all. `None` if none is acceptable.

    >>> choose_type({"Accept": "text/*;q=0.5, text/html"}, ["text/plain", "text/html"])
    'text/html'
    >>> choose_type({"Accept": "image/png"}, ["text/plain"]) is None
    True
    """
    return _choose(TYPE, request, offers)


def choose_coding(request: HeadersLike, offers: Sequence[str]) -> Optional[str]:
    """The content coding that a request is served, by its `Accept-Encoding` (RFC 9110, section 12.5.3).

    An offer is a value of Content-Encoding, or `identity` for content without a coding.

    >>> choose_coding({"Accept-Encoding": "gzip, br;q=0.9"}, ["br", "gzip", "identity"])
    'gzip'
    """
    return _choose(CODING, request, offers)


def choose_language(request: HeadersLike, offers: Sequence[str]) -> Optional[str]:
    """The language that a request is served, by its `Accept-Language` and basic filtering (RFC 4647, section 3.3.1).

    >>> choose_language({"Accept-Language": "da, en-gb;q=0.8, en;q=0.7"}, ["en-US", "en-GB"])
    'en-GB'
    """
    return _choose(LANGUAGE, request, offers)


def look_up_language(request: HeadersLike, offers: Sequence[str]) -> Optional[str]:
    """The language that lookup finds by `Accept-Language` (RFC 4647, section 3.4).

    >>> look_up_language({"Accept-Language": "en-GB"}, ["de", "en"])
    'en'
    """
    return _choose(LOOK_UP, request, offers)


def type_quality(request: HeadersLike, offer: Text) -> Quality:
    """How acceptable a media type is, by `Accept`.

    >>> type_quality({"Accept": "audio/*;q=0.2"}, "audio/ogg")
    Quality(weight=200, is_acceptable=True)
    """
    return rate_by(TYPE, request, offer)


def coding_quality(request: HeadersLike, offer: Text) -> Quality:
    """How acceptable a value of Content-Encoding is, by `Accept-Encoding`.

    >>> coding_quality({"Accept-Encoding": "gzip"}, "identity")
    Quality(weight=0, is_acceptable=True)
    """
    return rate_by(CODING, request, offer)


def language_quality(request: HeadersLike, offer: Text) -> Quality:
    """How acceptable a language tag is, by `Accept-Language`.

    >>> language_quality({"Accept-Language": "en"}, "eng")
    Quality(weight=0, is_acceptable=False)
    """
    return rate_by(LANGUAGE, request, offer)
