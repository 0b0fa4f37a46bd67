"""The header fields that the library knows: what each field value is, and where that is specified."""

from typing import Dict, NamedTuple

__all__ = ["FIELDS", "SECRETS", "Grammar"]


class Grammar(NamedTuple):
    """What a field's value is, and the section of the document that says so."""

    expected: str
    section: str


_ANY_LINE = "any field value"
_TEXT = "printable ASCII in a single field line"
_DATE = "an HTTP date in a single field line"
_SECONDS = "a number of seconds below 2^64 in a single field line"
_CORS = "Fetch standard, section 3.3"

#: Fields whose values no message and no `repr` shows.
SECRETS = ("authorization", "proxy-authorization", "cookie", "set-cookie")

#: By field name, in lower case. Fields of other names are copied as they came.
FIELDS: Dict[str, Grammar] = {
    "accept-ranges": Grammar("a list of range units", "RFC 9110, section 14.3"),
    "access-control-allow-credentials": Grammar("the word true", _CORS),
    "access-control-allow-headers": Grammar("a list of field names", _CORS),
    "access-control-allow-methods": Grammar("a list of methods", _CORS),
    "access-control-allow-origin": Grammar("*, null or one origin in a single field line", _CORS),
    "access-control-expose-headers": Grammar("a list of field names", _CORS),
    "access-control-max-age": Grammar(_SECONDS, _CORS),
    "access-control-request-headers": Grammar("a list of field names", _CORS),
    "access-control-request-method": Grammar("a method", _CORS),
    "age": Grammar(_SECONDS, "RFC 9111, section 5.1"),
    "allow": Grammar("a list of methods", "RFC 9110, section 10.2.1"),
    "cache-control": Grammar("directives, whose seconds are numbers below 2^64", "RFC 9111, section 5.2"),
    "connection": Grammar("a list of connection options", "RFC 9110, section 7.6.1"),
    "content-disposition": Grammar(_ANY_LINE, "RFC 6266, section 4"),
    "content-encoding": Grammar("a list of content codings", "RFC 9110, section 8.4"),
    "content-length": Grammar("a number of bytes below 2^64, the same in each field line", "RFC 9110, section 8.6"),
    "content-location": Grammar(_ANY_LINE, "RFC 9110, section 8.7"),
    "content-range": Grammar("bytes, a space, FIRST-LAST or *, a slash, and a length or *", "RFC 9110, section 14.4"),
    "content-type": Grammar("a media type", "RFC 9110, section 8.3"),
    "cookie": Grammar("pairs of a name and a value", "RFC 6265, section 4.2"),
    "date": Grammar(_DATE, "RFC 9110, section 6.6.1"),
    "etag": Grammar("an entity tag in a single field line", "RFC 9110, section 8.8.3"),
    "expect": Grammar("the word 100-continue in a single field line", "RFC 9110, section 10.1.1"),
    "expires": Grammar(_DATE, "RFC 9111, section 5.3"),
    "host": Grammar("a host, and optionally a colon and a port", "RFC 9110, section 7.2"),
    "if-match": Grammar("* or a list of entity tags", "RFC 9110, section 13.1.1"),
    "if-modified-since": Grammar(_DATE, "RFC 9110, section 13.1.3"),
    "if-none-match": Grammar("* or a list of entity tags", "RFC 9110, section 13.1.2"),
    "if-range": Grammar("an entity tag or an HTTP date", "RFC 9110, section 13.1.5"),
    "if-unmodified-since": Grammar(_DATE, "RFC 9110, section 13.1.4"),
    "last-modified": Grammar(_DATE, "RFC 9110, section 8.8.2"),
    "location": Grammar(_ANY_LINE, "RFC 9110, section 10.2.2"),
    "origin": Grammar("null or an origin in a single field line", "RFC 6454, section 7"),
    "pragma": Grammar(_ANY_LINE, "RFC 9111, section 5.4"),
    "range": Grammar("text that begins with bytes=", "RFC 9110, section 14.2"),
    "referer": Grammar(_TEXT, "RFC 9110, section 10.1.3"),
    "referrer-policy": Grammar("a list with a known policy", "Referrer Policy, section 8.1"),
    "retry-after": Grammar("a number of seconds below 2^64 or an HTTP date", "RFC 9110, section 10.2.3"),
    "sec-websocket-accept": Grammar(_ANY_LINE, "RFC 6455, section 11.3.3"),
    "sec-websocket-key": Grammar(_ANY_LINE, "RFC 6455, section 11.3.1"),
    "sec-websocket-version": Grammar("the word 13", "RFC 6455, section 11.3.5"),
    "server": Grammar(_TEXT, "RFC 9110, section 10.2.4"),
    "set-cookie": Grammar(_ANY_LINE, "RFC 6265, section 4.1"),
    "strict-transport-security": Grammar("directives with one max-age in a single field line", "RFC 6797, section 6.1"),
    "te": Grammar("a list of transfer codings", "RFC 9110, section 10.1.4"),
    "transfer-encoding": Grammar("a list of transfer codings", "RFC 9112, section 6.1"),
    "upgrade": Grammar(_ANY_LINE, "RFC 9110, section 7.8"),
    "user-agent": Grammar(_TEXT, "RFC 9110, section 10.1.5"),
    "vary": Grammar("* or a list of field names", "RFC 9110, section 12.5.5"),
}
