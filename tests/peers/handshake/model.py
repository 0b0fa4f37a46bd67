"""RFC 6455, section 4, and the sections of RFC 9110 that it cites, as a second reading of their text: what a server
answers to an opening handshake, and what a client makes of the response."""
import base64
import hashlib
import re

from common.server import ByteFields, lines_of

GUID = b"258EAFA5-E914-47DA-95CA-C5AB0DC85B11"
TOKEN = rb"[!#$%&'*+\-.^_`|~0-9A-Za-z]+"
# In a quoted-string a backslash escapes the next byte (RFC 9110, section 5.6.4).
QUOTED = rb'"((?:[\t !\x23-\x5b\x5d-\x7e\x80-\xff]|\\[\t \x21-\x7e\x80-\xff])*)"'
# extension-param = token [ "=" ( token / quoted-string ) ] (RFC 6455, section 9.1)
PARAMETER = re.compile(rb"[ \t]*;[ \t]*(%s)(?:[ \t]*=[ \t]*(?:(%s)|%s))?" % (TOKEN, TOKEN, QUOTED))
EXTENSION = re.compile(rb"%s" % TOKEN)


def elements(lines: list[bytes]) -> list[bytes]:
    """The elements of a list over all field lines: cut at commas outside quoted-strings, without the empty ones."""
    found, piece, is_quoted, is_escaped = [], b"", False, False
    for byte in (bytes([it]) for it in b", ".join(lines)):
        if byte == b"," and not is_quoted:
            found.append(piece)
            piece = b""
            continue
        piece += byte
        if is_escaped:
            is_escaped = False
        elif byte == b"\\" and is_quoted:
            is_escaped = True
        elif byte == b'"':
            is_quoted = not is_quoted
    return [it for it in (it.strip(b" \t") for it in [*found, piece]) if it]


def is_token(text: bytes) -> bool:
    return re.fullmatch(TOKEN, text) is not None


def lists(lines: list[bytes], word: bytes, grammar: bytes) -> set[bool]:
    """Whether a list has a word, without case. Whether that counts beside a member that breaks the grammar is left
    open: RFC 6455 has none for Upgrade and Connection."""
    found = elements(lines)
    is_there = any(it.lower() == word for it in found)
    is_sound = all(re.fullmatch(grammar, it) for it in found)
    return {is_there} if is_sound or not is_there else {True, False}


def upgrades(fields: ByteFields) -> set[bool]:
    """Whether Upgrade lists `websocket` (RFC 9110, section 7.8: protocol-name ["/" protocol-version])."""
    return lists(lines_of(fields, b"upgrade"), b"websocket", rb"%s(?:/%s)?" % (TOKEN, TOKEN))


def connects(fields: ByteFields) -> set[bool]:
    """Whether Connection lists `upgrade` (section 7.6.1: tokens)."""
    return lists(lines_of(fields, b"connection"), b"upgrade", TOKEN)


def extension(text: bytes) -> bytes | None:
    """The name of an extension of the grammar of section 9.1, or `None`."""
    name = EXTENSION.match(text)
    if not name:
        return None
    place = name.end()
    while place < len(text):
        found = PARAMETER.match(text, place)
        if not found:
            return None
        # "the value after quoted-string unescaping MUST conform to the 'token' ABNF"
        if found[3] is not None and not is_token(re.sub(rb"\\(.)", rb"\1", found[3], flags=re.DOTALL)):
            return None
        place = found.end()
    return name[0]


def extensions(lines: list[bytes]) -> list[bytes] | None:
    """The names of a Sec-WebSocket-Extensions of the grammar (at least one), or `None`."""
    names = [extension(it) for it in elements(lines)]
    found = [it for it in names if it is not None]
    return found if found and len(found) == len(names) else None


def protocols(lines: list[bytes]) -> list[bytes] | None:
    """The subprotocols of a request's Sec-WebSocket-Protocol (section 4.3: 1#token), or `None`."""
    found = elements(lines)
    return found if found and all(map(is_token, found)) else None


def accept_key(key: bytes) -> bytes:
    return base64.b64encode(hashlib.sha1(key + GUID).digest())


def is_key(key: bytes) -> bool:
    """Whether it is the base64 of sixteen bytes (section 4.2.1, 5), without bits after the last one."""
    try:
        decoded = base64.b64decode(key, validate=True)
    except ValueError:
        return False
    return len(decoded) == 16 and base64.b64encode(decoded) == key


def is_any_key(key: bytes) -> bool:
    """The same, where bits after the last byte don't count: the RFC's own example has some (section 4.1, 7)."""
    return bool(re.fullmatch(rb"[A-Za-z0-9+/]{21}[AQgw]==", key)) or bool(re.fullmatch(rb"[A-Za-z0-9+/]{22}==", key))


def statuses(method: bytes, version: bytes, fields: ByteFields) -> set[int]:
    """The statuses that a server may answer with, of 101, 400 and 426, over the readings that the text leaves open."""
    keys, versions = lines_of(fields, b"sec-websocket-key"), lines_of(fields, b"sec-websocket-version")
    offers, asked = lines_of(fields, b"sec-websocket-extensions"), lines_of(fields, b"sec-websocket-protocol")
    is_upgrade, is_connection = upgrades(fields), connects(fields)
    if not (
        method == b"GET" and version == b"HTTP/1.1" and len(lines_of(fields, b"host")) == 1 and True in is_upgrade
        and True in is_connection and len(keys) == 1 and is_any_key(keys[0]) and (not offers or extensions(offers))
        and (not asked or protocols(asked))
    ):
        # (which of several rules that are broken is named is the server's to choose)
        return {400} | ({426} if versions != [b"13"] else set())
    if versions != [b"13"]:
        return {400, 426}  # "an appropriate HTTP error code (such as 426 Upgrade Required)" (section 4.2.2, 4)
    names = protocols(asked) or []
    # Whether bits after the last byte of a key count isn't said, nor whether a server rejects what a client MUST NOT
    # repeat.
    is_open = False in is_upgrade | is_connection or not is_key(keys[0]) or len(set(names)) < len(names)
    return {101, 400} if is_open else {101}


def taken(own: list[bytes], fields: ByteFields) -> list[bytes]:
    """The line of the subprotocol that a server takes: the first of its own that is asked for."""
    asked = protocols(lines_of(fields, b"sec-websocket-protocol")) or []
    return [it for it in own if is_token(it) and it in asked][:1]


def opens(sent: ByteFields, status: int, fields: ByteFields) -> set[bool]:
    """Whether a client opens the connection on a response (section 4.1), over the readings that the text leaves open.
    """
    keys, given = lines_of(sent, b"sec-websocket-key"), lines_of(fields, b"sec-websocket-extensions")
    offered = extensions(lines_of(sent, b"sec-websocket-extensions")) or []
    names = extensions(given) if given else []
    asked, chosen = lines_of(sent, b"sec-websocket-protocol"), lines_of(fields, b"sec-websocket-protocol")
    is_connection = connects(fields)
    kept = (
        status == 101
        and [it.lower() for it in lines_of(fields, b"upgrade")] == [b"websocket"]
        and True in is_connection
        and len(keys) == 1 and lines_of(fields, b"sec-websocket-accept") == [accept_key(keys[0])]
        and names is not None and all(it in offered for it in names)
        and len(chosen) <= 1 and all(it in (protocols(asked) or []) for it in chosen)
    )
    return is_connection if kept else {False}
