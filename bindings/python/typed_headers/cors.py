"""Requests from other origins (Fetch standard, section 3.3)."""

from dataclasses import dataclass
from enum import IntEnum
from typing import ClassVar, Iterable, List, Optional, Tuple, Union

from . import _library
from ._checks import check_members
from ._library import Text, made
from .errors import HeaderError
from .headers import Headers, HeadersLike, asked_of, section_of

__all__ = ["CORS_FIELDS", "CorsAnswer", "CorsKind", "CorsPolicy"]

#: The fields of a response that are the policy's alone.
CORS_FIELDS = (
    "access-control-allow-origin",
    "access-control-allow-credentials",
    "access-control-expose-headers",
    "access-control-allow-methods",
    "access-control-allow-headers",
    "access-control-max-age",
)

_LISTS = ("origins", "methods", "headers", "exposed")


class CorsKind(IntEnum):
    """What a request is to a policy."""

    #: It has no `Origin`.
    NO_ORIGIN = 0
    #: It has one, and is no preflight.
    PLAIN = 1
    #: A browser asks whether it may send another request.
    PREFLIGHT = 2


@dataclass(frozen=True)
class CorsAnswer:
    """What a policy answers a request."""

    kind: CorsKind
    #: Whether the request's origin is allowed. A request without one is.
    is_allowed: bool
    #: The fields to add to the response: `apply` does so.
    fields: Tuple[Tuple[str, str], ...]

    def __post_init__(self) -> None:
        check_members(self)

    def apply(self, response: Iterable[Tuple[str, str]]) -> List[Tuple[str, str]]:
        """The fields of the response with those of this answer.

        >>> policy = CorsPolicy(origins=["https://a.example"])
        >>> response = [("Content-Type", "text/plain"), ("Vary", "Accept")]
        >>> for name, value in policy.answer("GET", {"Origin": "https://a.example"}, response).apply(response):
        ...     print(f"{name}: {value}")
        Content-Type: text/plain
        access-control-allow-origin: https://a.example
        vary: Accept
        vary: origin
        """
        replaced = {*CORS_FIELDS, *(name for name, _ in self.fields)}
        return [(name, value) for name, value in response if name.lower() not in replaced] + list(self.fields)


@dataclass(frozen=True)
class CorsPolicy:
    """What a server allows requests from other origins. A list may be "*": any.

    A policy that no browser reads as it is meant raises `HeaderError`: an origin that no browser sends, `*` among
    several methods or names, or `*` with credentials.

    >>> policy = CorsPolicy(origins=["https://a.example"], methods=["PUT"], max_age=600)
    >>> preflight = {"Origin": "https://a.example", "Access-Control-Request-Method": "PUT"}
    >>> answer = policy.answer("OPTIONS", preflight)
    >>> answer.kind, answer.is_allowed
    (<CorsKind.PREFLIGHT: 2>, True)
    >>> for name, value in answer.fields:
    ...     print(f"{name}: {value}")
    access-control-allow-origin: https://a.example
    access-control-allow-methods: PUT
    access-control-max-age: 600
    vary: origin
    """

    #: The origins, as `https://a.example`, compared byte for byte with what a browser sends.
    origins: Union[str, Iterable[str]] = ()
    #: The methods besides GET, HEAD and POST, with case.
    methods: Union[str, Iterable[str]] = ()
    #: The names of request fields besides those that need no leave. Any name is each but `authorization`.
    headers: Union[str, Iterable[str]] = ()
    #: The names of response fields that scripts may read besides those that are always readable.
    exposed: Union[str, Iterable[str]] = ()
    #: For how many seconds a browser may keep the answer to a preflight.
    max_age: Optional[int] = None
    #: Whether requests may include credentials.
    credentials: bool = False
    # The policy as the library takes it, and the handle that it made of that.
    _rules: ClassVar[Tuple[bytes, bytes, bytes, bytes, Optional[int], bool]]
    _handle: "ClassVar[_library.Handle]"

    def __post_init__(self) -> None:
        check_members(self)
        for name in _LISTS:
            given = getattr(self, name)
            object.__setattr__(self, name, (given,) if isinstance(given, str) else tuple(given))
        texts = [_library.joined(_library.to_lines(name, getattr(self, name))) for name in _LISTS]
        if self.max_age is not None:
            object.__setattr__(self, "max_age", _library.to_number(self.max_age, "max_age"))
        origins, methods, headers, exposed = texts
        object.__setattr__(self, "_rules", (origins, methods, headers, exposed, self.max_age, self.credentials))
        status, handle = _library.calls.cors_policy_new(self._rules)
        _library.check(status, self._unreadable)
        object.__setattr__(self, "_handle", handle)

    def __reduce__(self) -> Tuple[object, ...]:
        return CorsPolicy, (*(getattr(self, name) for name in _LISTS), self.max_age, self.credentials)

    def answer(self, method: Text, request: HeadersLike, response: HeadersLike = ()) -> CorsAnswer:
        """What a server with this policy answers a request.

        `response` has the fields of the response as its handler left it, of which Vary counts. A preflight is answered
        with a status from 200 to 299.
        """
        verb, asked, given = _library.to_bytes(method, "method"), asked_of(request), section_of(response)
        status, (kind, is_allowed), text = _library.calls.cors_policy_answer(self._handle, asked, (verb, given))
        _library.check(status, lambda: _refused(verb, asked if isinstance(asked, bytes) else b"", given))
        lines = tuple(Headers(text).pairs())
        return made(CorsAnswer, kind=CorsKind(kind), is_allowed=is_allowed == 1, fields=lines)

    def _unreadable(self) -> HeaderError:
        unsent = unsent_origin(self._rules[0])
        if unsent:
            return unsent
        shown = ", ".join(f"{name}={list(getattr(self, name))}" for name in _LISTS if getattr(self, name))
        shown += ", credentials=True" if self.credentials else ""
        return HeaderError(f"no browser reads this policy as it is meant: {shown}")


def unsent_origin(origins: bytes) -> Optional[HeaderError]:
    """That no browser sends one of these origins, one a line, if so: the first."""
    status, place = _library.calls.unsent_origin(origins)
    if status:
        return None
    shown = _library.to_str(origins.split(b"\n")[place])
    return HeaderError(f"origins: no browser sends {shown!r} (place {place})")


def _refused(method: bytes, request: bytes, response: bytes) -> HeaderError:
    for section in (request, response):
        try:
            _library.canonical_text(section)
        except HeaderError as error:
            return error
    return HeaderError(f"method: {_library.to_str(method)!r} is no token (RFC 9110, section 9.1)")
