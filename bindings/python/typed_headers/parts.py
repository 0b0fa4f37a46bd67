"""Fields whose values have parts: preferences, dispositions, challenges, links, hops and cookies to be set.

Each type has `parse`, from field lines, and `str`, a field line. What is malformed raises `InvalidField`.
"""

from dataclasses import dataclass, field, fields
from datetime import datetime, timezone
from typing import (
    TYPE_CHECKING,
    Any,
    Callable,
    Dict,
    Iterator,
    List,
    NoReturn,
    Optional,
    Sequence,
    Tuple,
    Type,
    TypeVar,
)

from . import _library
from ._library import Parsed, Text
from .errors import HeaderError
from .negotiation import (
    CODING,
    LANGUAGE,
    LOOK_UP,
    TYPE,
    Quality,
    choose_by,
    rate_by,
)
from .values import _made, format_date

__all__ = [
    "Accept",
    "AcceptEncoding",
    "AcceptLanguage",
    "CacheStatus",
    "Challenge",
    "ContentDisposition",
    "Element",
    "Forwarded",
    "Link",
    "SetCookie",
]

#: Names and values, in order. A name without a value has `None`.
Parameters = Tuple[Tuple[str, Optional[str]], ...]

_ELEMENTS, _CHALLENGES, _LINKS, _SET_COOKIES, _, _HOPS, _CACHES = range(7)
_EXTENDED, _PLAIN, _QUOTED, _IN_CHALLENGE = range(4)
_read_elements, _read_groups = _library.calls.elements_as, _library.calls.groups

#: A part: a letter that says what it is, its name or its text, and its value, if it has one.
_Part = Tuple[str, str, Optional[str]]


def _groups(form: int, name: str, line: Text, more: Tuple[Text, ...]) -> List[List[_Part]]:
    """The parts of each element."""
    found = _read_groups(None, line, more, form)
    if isinstance(found, int):
        raise _library.failed(found, name, (line, *more), "a field line has a byte that no field value has")
    return found


def _reject(name: str, lines: Sequence[Text], expected: str) -> NoReturn:
    raise _library.rejected(name, _library.to_lines(name, lines), f"expected {expected}")


def _parameters(parts: Sequence[_Part]) -> Parameters:
    """The names and values of these parts."""
    return tuple([(name, value) for _, name, value in parts])


def _pair(name: str, value: Optional[str], kind: int = _PLAIN) -> str:
    """A parameter of a kind, as it is in a field line."""
    if value is None:
        return name
    text = value.encode("utf-8", "surrogatepass") if kind == _EXTENDED else _library.to_bytes(value, name)
    status, shown = _library.calls.format_parameter(kind, _library.to_bytes(name, "parameter"), text)
    _library.check(status, lambda: HeaderError(f"{name}: {value!r} can't be the value of such a parameter"))
    return _library.to_str(shown)


def _to_parameters(given: Any, what: str) -> Parameters:
    pairs = tuple([(name, value) for name, value in given]) if given else ()
    for name, value in pairs:
        if not isinstance(name, str) or value is not None and not isinstance(value, str):
            raise TypeError(f"{what}: expected pairs of str, or of str and None")
    return pairs


@dataclass(frozen=True)
class Element:
    """An element of a list, with its parameters (RFC 9110, section 5.6.6)."""

    value: str
    parameters: Parameters = ()

    def __post_init__(self) -> None:
        _library.check_types(self, value=str)
        object.__setattr__(self, "parameters", _to_parameters(self.parameters, "parameters"))

    def __str__(self) -> str:
        return "; ".join([self.value, *(_pair(name, value) for name, value in self.parameters)])

    def parameter(self, name: str) -> Optional[str]:
        """The value of the first parameter of a name, without quotes. The case of the name doesn't count."""
        return _library.first_named(self.parameters, name)


Value = TypeVar("Value")


def _elements(
    kinds: Tuple[Type[Value], str], name: str, line: Text, more: Tuple[Text, ...], form: int = _ELEMENTS
) -> List[Value]:
    """The elements of field lines, each with parameters alone behind its text."""
    found = _read_elements(kinds, line, more, form)
    if isinstance(found, int):
        raise _library.failed(found, name, (line, *more), "a field line has a byte that no field value has")
    if found is None:
        _reject(name, (line, *more), _FORMS[form])
    return found


_FORMS = {
    _ELEMENTS: "a list of values with parameters (RFC 9110, section 5.6.6)",
    _LINKS: "a list of links (RFC 8288, section 3)",
}


Preference = TypeVar("Preference", bound="_Preferences")


@dataclass(frozen=True)
class _Preferences:
    """What a client prefers: the elements of a list, with their weights as parameters named `q`."""

    elements: Tuple[Element, ...] = ()

    _NAME, _DIMENSION = "", TYPE

    def __post_init__(self) -> None:
        object.__setattr__(self, "elements", tuple(self.elements))
        if not all(isinstance(it, Element) for it in self.elements):
            raise TypeError("elements: expected elements of Element")
        if self.elements and self.parse(str(self)) != self:
            raise HeaderError(f"{self._NAME}: {str(self)!r} has other elements")

    @classmethod
    def parse(cls: Type[Preference], line: Text, *more: Text) -> Preference:
        """The elements of all field lines."""
        return _made(cls, elements=tuple(_elements((Element, "value"), cls._NAME, line, more)))

    def __str__(self) -> str:
        return ", ".join(map(str, self.elements))

    def __iter__(self) -> Iterator[Element]:
        return iter(self.elements)

    def __len__(self) -> int:
        return len(self.elements)

    def best_match(self, offers: Sequence[str]) -> Optional[str]:
        """What is served of what a server has, the most wanted first: `choose_type` and the like."""
        return choose_by(self._DIMENSION, (str(self),), offers)

    def quality(self, offer: Text) -> Quality:
        """How acceptable an offer is: `type_quality` and the like."""
        return rate_by(self._DIMENSION, {self._NAME: str(self)}, offer)


class Accept(_Preferences):
    """The media types that a client prefers (RFC 9110, section 12.5.1).

    >>> accept = Accept.parse("text/*;q=0.5, text/html")
    >>> accept.best_match(["text/plain", "text/html"]), accept.quality("text/plain").weight
    ('text/html', 500)
    >>> [it.value for it in accept]
    ['text/*', 'text/html']
    """

    _NAME = "accept"


class AcceptEncoding(_Preferences):
    """The content codings that a client prefers (RFC 9110, section 12.5.3).

    >>> AcceptEncoding.parse("gzip, br;q=0.9").best_match(["br", "gzip", "identity"])
    'gzip'
    """

    _NAME, _DIMENSION = "accept-encoding", CODING


class AcceptLanguage(_Preferences):
    """The languages that a client prefers (RFC 9110, section 12.5.4).

    >>> preferred = AcceptLanguage.parse("da, en-gb;q=0.8, en;q=0.7")
    >>> preferred.best_match(["en-US", "en-GB"]), preferred.look_up(["de", "en"])
    ('en-GB', 'en')
    """

    _NAME, _DIMENSION = "accept-language", LANGUAGE

    def look_up(self, offers: Sequence[str]) -> Optional[str]:
        """The language that lookup finds: `look_up_language`."""
        return choose_by(LOOK_UP, (str(self),), offers)


@dataclass(frozen=True)
class ContentDisposition(Parsed):
    """How content is to be presented, and under which name it is to be stored (RFC 6266).

    >>> found = ContentDisposition.parse("attachment; filename=rates; filename*=UTF-8''%e2%82%ac%20rates")
    >>> found.is_attachment, found.filename
    (True, '€ rates')
    >>> str(ContentDisposition("attachment", "a b.txt"))
    'attachment; filename="a b.txt"'
    >>> str(ContentDisposition("attachment", "naïve.txt"))
    "attachment; filename*=UTF-8''na%C3%AFve.txt"
    """

    #: `inline`, `attachment`, `form-data` or another word, in lower case.
    type: str
    #: The text of `filename*`, or else of `filename`. A recipient takes no path of it (RFC 6266, section 4.3).
    filename: Optional[str] = None
    #: The other parameters.
    parameters: Parameters = ()

    def __post_init__(self) -> None:
        _library.check_types(self, type=str, filename=(str, type(None)))
        object.__setattr__(self, "parameters", _to_parameters(self.parameters, "parameters"))
        parsed = ContentDisposition.parse(str(self))
        if parsed != self:
            raise HeaderError(f"content-disposition: {str(self)!r} means something else")
        object.__setattr__(self, "_is_attachment", parsed.is_attachment)

    if TYPE_CHECKING:

        @classmethod
        def parse(cls, line: Text, *more: Text) -> "ContentDisposition":
            """The disposition of the only field line."""
            raise NotImplementedError

    _PARSE = "parse_disposition"

    @classmethod
    def _otherwise(cls, status: int, lines: Tuple[Text, ...]) -> NoReturn:
        expected = "expected a word with parameters (RFC 6266, section 4.1)"
        raise _library.failed(status, "content-disposition", lines, expected)

    @property
    def is_attachment(self) -> bool:
        """Whether it is to be saved, as a type that isn't known is, too (RFC 6266, section 4.2)."""
        return bool(getattr(self, "_is_attachment"))

    def parameter(self, name: str) -> Optional[str]:
        """The value of the first other parameter of a name, without quotes."""
        return _library.first_named(self.parameters, name)

    def __str__(self) -> str:
        named = [] if self.filename is None else [_pair("filename", self.filename, _EXTENDED)]
        return "; ".join([self.type, *named, *(_pair(name, value) for name, value in self.parameters)])


@dataclass(frozen=True)
class Challenge:
    """What a server asks a client for (RFC 9110, section 11.3), by a scheme such as Basic, Bearer or Digest.

    >>> basic, digest = Challenge.parse_all('Basic realm="a", Digest realm="b", nonce="c", qop="auth, auth-int"')
    >>> basic.scheme, basic.realm, digest.parameter("nonce"), digest.parameter("qop")
    ('Basic', 'a', 'c', 'auth, auth-int')
    >>> str(Challenge("Bearer", (("error", "invalid_token"),)))
    'Bearer error=invalid_token'
    """

    scheme: str
    parameters: Parameters = ()
    #: What follows the scheme in place of parameters, as of Negotiate, or `None`.
    token: Optional[str] = None

    def __post_init__(self) -> None:
        _library.check_types(self, scheme=str, token=(str, type(None)))
        object.__setattr__(self, "parameters", _to_parameters(self.parameters, "parameters"))
        if Challenge.parse_all(str(self)) != [self]:
            raise HeaderError(f"www-authenticate: {str(self)!r} is another challenge")

    @classmethod
    def parse_all(cls, line: Text, *more: Text) -> List["Challenge"]:
        """The challenges of all field lines of `WWW-Authenticate` or `Proxy-Authenticate`."""
        found = []
        for parts in _groups(_CHALLENGES, "www-authenticate", line, more):
            if "!" in [kind for kind, _, _ in parts]:
                _reject("www-authenticate", (line, *more), "a list of challenges (RFC 9110, section 11.6.1)")
            (_, scheme, _), *rest = parts
            token = rest.pop(0)[1] if rest and rest[0][0] == "k" else None
            found.append(_made(cls, scheme=scheme, parameters=_parameters(rest), token=token))
        return found

    @property
    def realm(self) -> Optional[str]:
        """The protected space (RFC 9110, section 11.5)."""
        return self.parameter("realm")

    def parameter(self, name: str) -> Optional[str]:
        """The value of the first parameter of a name, without quotes. The case of the name doesn't count."""
        return _library.first_named(self.parameters, name)

    def __str__(self) -> str:
        shown = [self.token] if self.token is not None else []
        shown += [_pair(name, value, _IN_CHALLENGE) for name, value in self.parameters]
        return f"{self.scheme} {', '.join(shown)}".rstrip(" ")


@dataclass(frozen=True)
class Link:
    """A link (RFC 8288).

    >>> link, = Link.parse_all('</TheBook/chapter2>; rel="previous prefetch"; title="previous chapter"')
    >>> link.target, link.relations, link.title
    ('/TheBook/chapter2', ['previous', 'prefetch'], 'previous chapter')
    >>> str(Link("/style.css", (("rel", "preload"), ("as", "style"))))
    '</style.css>; rel=preload; as=style'
    """

    #: The target, which may be relative.
    target: str
    parameters: Parameters = ()

    def __post_init__(self) -> None:
        _library.check_types(self, target=str)
        object.__setattr__(self, "parameters", _to_parameters(self.parameters, "parameters"))
        if Link.parse_all(str(self)) != [self]:
            raise HeaderError(f"link: {str(self)!r} is another link")

    @classmethod
    def parse_all(cls, line: Text, *more: Text) -> List["Link"]:
        """The links of all field lines of `Link`."""
        return _elements((cls, "target"), "link", line, more, _LINKS)

    @property
    def relations(self) -> List[str]:
        """The relation types of the first `rel`, in lower case (RFC 8288, section 3.3)."""
        return [text for kind, text, _ in _groups(_LINKS, "link", str(self), ())[0] if kind == "l"]

    @property
    def title(self) -> Optional[str]:
        """The text of `title*`, or else of `title` (RFC 8288, section 3.4.1)."""
        for kind, text, _ in _groups(_LINKS, "link", str(self), ())[0]:
            if kind == "o":
                return text
            if kind == "e":
                status, decoded = _library.calls.extended_text(_library.to_bytes(text, "parameter"))
                _library.check(status, lambda: HeaderError(f"link: {text!r} means no text"))
                return decoded.decode()
        return None

    def parameter(self, name: str) -> Optional[str]:
        """The value of the first parameter of a name, without quotes. The case of the name doesn't count."""
        return _library.first_named(self.parameters, name)

    def __str__(self) -> str:
        return "; ".join([f"<{self.target}>", *(_pair(name, value) for name, value in self.parameters)])


@dataclass(frozen=True)
class Forwarded:
    """What a proxy says of a request that it forwarded (RFC 7239). What clients send in it may be wrong.

    >>> [it.client for it in Forwarded.parse_all('for=192.0.2.43, for="[2001:db8::17]:4711";proto=https')]
    ['192.0.2.43', '[2001:db8::17]:4711']
    """

    #: `for`, `by`, `host`, `proto` and others, in order.
    parameters: Parameters = ()

    def __post_init__(self) -> None:
        object.__setattr__(self, "parameters", _to_parameters(self.parameters, "parameters"))
        if Forwarded.parse_all(str(self)) != [self]:
            raise HeaderError(f"forwarded: {str(self)!r} means something else")

    @classmethod
    def parse_all(cls, line: Text, *more: Text) -> List["Forwarded"]:
        """The elements of all field lines of `Forwarded`: the nearest proxy's is the last."""
        found = []
        for parts in _groups(_HOPS, "forwarded", line, more):
            if parts[0][0] == "!":
                _reject("forwarded", (line, *more), "a list of pairs, each name once (RFC 7239, section 4)")
            found.append(_made(cls, parameters=_parameters([it for it in parts if it[0] == "p"])))
        return found

    @property
    def client(self) -> Optional[str]:
        """`for`: the address of the client, or a name for it."""
        return _library.first_named(self.parameters, "for")

    @property
    def by(self) -> Optional[str]:
        """The interface on which the request came in."""
        return _library.first_named(self.parameters, "by")

    @property
    def host(self) -> Optional[str]:
        """Host as the proxy received it."""
        return _library.first_named(self.parameters, "host")

    @property
    def proto(self) -> Optional[str]:
        """The protocol of the request."""
        return _library.first_named(self.parameters, "proto")

    def __str__(self) -> str:
        return ";".join(_pair(name, value) for name, value in self.parameters) or ";"


@dataclass(frozen=True)
class CacheStatus:
    """What a cache did with a request (RFC 9211). A parameter of another type, or of another name, counts as not there.

    >>> origin, edge = CacheStatus.parse_all("origin; fwd=uri-miss; stored, edge; hit; ttl=376")
    >>> origin.is_hit, origin.forwarded, edge.is_hit, edge.ttl
    (False, 'uri-miss', True, 376)
    >>> str(CacheStatus("edge", forwarded="stale", forwarded_status=304, key="a b"))
    '"edge"; fwd=stale; fwd-status=304; key="a b"'
    """

    #: The name of the cache.
    cache: str
    #: Whether it answered without forwarding the request.
    is_hit: bool = False
    #: `fwd`: why it forwarded the request.
    forwarded: Optional[str] = None
    #: The status of the next server's answer.
    forwarded_status: Optional[int] = None
    #: For how many more seconds the response is fresh: below 0 if it is stale.
    ttl: Optional[int] = None
    is_stored: bool = False
    #: Whether the request waited for another one's answer.
    is_collapsed: bool = False
    #: The key of the response in the cache.
    key: Optional[str] = None
    detail: Optional[str] = None

    def __post_init__(self) -> None:
        texts = dict.fromkeys(("forwarded", "key", "detail"), (str, type(None)))
        numbers = dict.fromkeys(("forwarded_status", "ttl"), (int, type(None)))
        _library.check_types(self, cache=str, **texts, **numbers)
        if CacheStatus.parse_all(str(self)) != [self]:
            raise HeaderError(f"cache-status: {str(self)!r} means something else")

    @classmethod
    def parse_all(cls, line: Text, *more: Text) -> List["CacheStatus"]:
        """The caches of all field lines of `Cache-Status`: the nearest to the client is the last."""
        found = []
        for parts in _groups(_CACHES, "cache-status", line, more):
            if "!" in [kind for kind, _, _ in parts]:
                _reject("cache-status", (line, *more), "a list of caches (RFC 9211, section 2)")
            members = {**_NO_STATUS, "cache": parts[0][1]}
            for _, name, value in parts[1:]:
                member, shown = _STATUS[name]
                members[member] = shown(value)
            found.append(_made(cls, **members))
        return found

    def __str__(self) -> str:
        shown = [_pair("a", self.cache, _QUOTED)[2:]]
        shown += ["hit"] if self.is_hit else []
        shown += [f"fwd={self.forwarded}"] if self.forwarded is not None else []
        shown += [f"fwd-status={self.forwarded_status}"] if self.forwarded_status is not None else []
        shown += [f"ttl={self.ttl}"] if self.ttl is not None else []
        shown += ["stored"] if self.is_stored else []
        shown += ["collapsed"] if self.is_collapsed else []
        shown += [_pair("key", self.key, _QUOTED)] if self.key is not None else []
        shown += [_pair("detail", self.detail, _QUOTED)] if self.detail is not None else []
        return "; ".join(shown)


def _is_there(value: Optional[str]) -> bool:
    return True


#: The member that each parameter is, and what shows its value.
_STATUS: Dict[str, Tuple[str, Callable[[Any], Any]]] = {
    "hit": ("is_hit", _is_there),
    "fwd": ("forwarded", str),
    "fwd-status": ("forwarded_status", int),
    "ttl": ("ttl", int),
    "stored": ("is_stored", _is_there),
    "collapsed": ("is_collapsed", _is_there),
    "key": ("key", str),
    "detail": ("detail", str),
}
_NO_STATUS: Dict[str, Any] = {it.name: it.default for it in fields(CacheStatus)}


@dataclass(frozen=True)
class SetCookie:
    """A cookie that a server sets (RFC 6265). Its `repr` has no value.

    >>> cookie = SetCookie.parse("SID=31d4d96e; Path=/; Secure; HttpOnly; SameSite=Lax; Max-Age=3600")
    >>> cookie
    SetCookie(name='SID', path='/', max_age=3600, secure=True, http_only=True, same_site='Lax')
    >>> str(SetCookie("__Host-id", "1", path="/", secure=True))
    '__Host-id=1; Path=/; Secure'
    """

    name: str
    value: str = field(repr=False)
    #: The path below which the cookie is sent, or `None` for that of the request.
    path: Optional[str] = None
    #: The host below which it is sent, in lower case, or `None` for the host that set it alone.
    domain: Optional[str] = None
    #: For how many seconds it is stored. It is removed at once if that is 0.
    max_age: Optional[int] = None
    #: Until when it is stored. `max_age` goes before it.
    expires: Optional[datetime] = None
    secure: bool = False
    http_only: bool = False
    #: `Strict`, `Lax` or `None`, as a text.
    same_site: Optional[str] = None
    #: Other attributes.
    others: Parameters = ()

    def __repr__(self) -> str:
        given = {name: value for name, value in self.__dict__.items() if name != "value"}
        shown = [f"{name}={value!r}" for name, value in given.items() if value or name == "max_age" and value == 0]
        return f"SetCookie({', '.join(shown)})"

    def __post_init__(self) -> None:
        texts = dict.fromkeys(("path", "domain", "same_site"), (str, type(None)))
        _library.check_types(self, name=str, value=str, max_age=(int, type(None)), **texts)
        object.__setattr__(self, "others", _to_parameters(self.others, "others"))
        if not self.is_allowed:
            raise HeaderError(f"set-cookie: {self.name} needs what its prefix promises, or Secure with SameSite=None")
        parsed = SetCookie.parse(str(self)).__dict__
        wrong = [name for name, member in self.__dict__.items() if parsed[name] != member]
        if wrong:
            raise HeaderError(f"set-cookie: {self.name} would be another cookie, by its {' and '.join(wrong)}")

    @classmethod
    def parse(cls, line: Text, *more: Text) -> "SetCookie":
        """The cookie of the first field line (RFC 6265, section 5.2): of two attributes of a name the last counts, and
        what an attribute can't be counts as not there. `expires` may be any date of section 5.1.1, and one before 1970
        is 1970's first second. A `max_age` past 2^64 - 1 is that, and one below 0 is 0."""
        (kind, first, content), *attributes = _groups(_SET_COOKIES, "set-cookie", line, more)[0]
        if kind == "!":
            _reject("set-cookie", (line,), "a name, = and a value (RFC 6265, section 5.2)")
        members: Dict[str, Any] = dict(name=first, value=content, path=None, domain=None, max_age=None, expires=None)
        members.update(secure=False, http_only=False, same_site=None)
        others: List[Tuple[str, Optional[str]]] = []
        for kind, name, value in attributes:
            if name in _ATTRIBUTES and kind != "r":
                member, shown = _ATTRIBUTES[name]
                members[member] = shown(value)
            elif kind != "r":
                others.append((name, value))
        return _made(cls, **members, others=tuple(others))

    @property
    def is_allowed(self) -> bool:
        """Whether browsers take the cookie from a secure origin: what the prefixes `__Secure-` and `__Host-` promise
        is so, and `SameSite=None` is `Secure`."""
        return all(kind != "r" for kind, _, _ in _groups(_SET_COOKIES, "set-cookie", str(self), ())[0])

    def __str__(self) -> str:
        shown = [f"{self.name}={self.value}"]
        shown += [f"Path={self.path}"] if self.path is not None else []
        shown += [f"Domain={self.domain}"] if self.domain is not None else []
        shown += [f"Max-Age={self.max_age}"] if self.max_age is not None else []
        shown += [f"Expires={format_date(self.expires)}"] if self.expires is not None else []
        shown += ["Secure"] if self.secure else []
        shown += ["HttpOnly"] if self.http_only else []
        shown += [f"SameSite={self.same_site}"] if self.same_site is not None else []
        shown += [name if value is None else f"{name}={value}" for name, value in self.others]
        return "; ".join(shown)


def _date(text: str) -> datetime:
    return datetime.strptime(text, "%Y-%m-%dT%H:%M:%SZ").replace(tzinfo=timezone.utc)


#: The member that each attribute of a cookie is, and what shows its value.
_ATTRIBUTES: Dict[str, Tuple[str, Callable[[Any], Any]]] = {
    "Path": ("path", str),
    "Domain": ("domain", str),
    "Max-Age": ("max_age", int),
    "Expires": ("expires", _date),
    "Secure": ("secure", _is_there),
    "HttpOnly": ("http_only", _is_there),
    "SameSite": ("same_site", str),
}
