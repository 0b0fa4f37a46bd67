"""What is handed to the calls of the library, and what comes back: texts, times and numbers, and statuses as exceptions.

The calls are those of the extension `_native`, which has the library in it or is linked with it. If the environment
variable TYPED_HEADERS_LIBRARY names a library, the extension calls that one.
"""

import ctypes
import operator
import os
import re
from contextlib import contextmanager
from datetime import datetime, timedelta, timezone
from enum import IntEnum
from types import BuiltinFunctionType
from typing import (
    TYPE_CHECKING,
    Any,
    Callable,
    Iterable,
    Iterator,
    List,
    Optional,
    Sequence,
    SupportsIndex,
    Tuple,
    Type,
    TypeVar,
    Union,
)

from ._checks import check_members, type_name
from ._names import FIELDS, SECRETS
from .errors import HeaderError, InvalidField, InvalidSection, TooLarge

if TYPE_CHECKING:
    from ._native import Handle as Handle

if os.environ.get("TYPED_HEADERS_LIBRARY"):
    # (names of libraries that are loaded for all come before the extension's own)
    ctypes.CDLL(os.environ["TYPED_HEADERS_LIBRARY"], ctypes.RTLD_GLOBAL)
try:
    import typed_headers._native as _native
except ImportError as error:
    raise ImportError(
        f"typed_headers: the extension can't be loaded ({error}): install a wheel, or install the package with a C "
        "compiler and the library's files for development"
    ) from error
calls = _native

#: Text of a field. A `str` has one character for each byte (ISO 8859-1), as in WSGI and `http.client`.
Text = Union[str, bytes, bytearray, memoryview]
#: A time: a `datetime` with a time zone, or the seconds since the start of 1970.
Time = Union[datetime, int]

EPOCH = datetime(1970, 1, 1, tzinfo=timezone.utc)
SECOND = timedelta(seconds=1)


class Status(IntEnum):
    """How a call ends."""

    DONE = 0
    REFUSED = 1
    NO_MEMORY = 2
    NO_ROOM = 3
    ABSENT = 4
    TOO_LARGE = 5
    MARKED = 6


_REFUSED, _NO_MEMORY, ABSENT, _TOO_LARGE = map(
    int, (Status.REFUSED, Status.NO_MEMORY, Status.ABSENT, Status.TOO_LARGE)
)

#: A parameter as a token or a quoted-string.
_PLAIN = 1

# Bytes that no sender of field names can guess. A map of fields hashes with them once names collide.
_KEYS = os.urandom(16)
calls.use_keys(_KEYS)


@contextmanager
def keyed(key: Optional[bytes]) -> Iterator[None]:
    """Hashes what is opened here with another key, if there is one."""
    calls.use_keys(_KEYS if key is None else key)
    try:
        yield
    finally:
        calls.use_keys(_KEYS)


def version() -> str:
    """The version of the library."""
    return calls.version()


# What is passed


def to_bytes(text: Text, what: str) -> bytes:
    """The bytes of a text."""
    if isinstance(text, str):
        try:
            return text.encode("latin-1")
        except UnicodeEncodeError as error:
            character = f"character {error.start}, {text[error.start]!r}, is no byte"
            raise HeaderError(f"{what}: {character}: encode the text first") from None
    if isinstance(text, (bytes, bytearray, memoryview)):
        return bytes(text)
    raise TypeError(f"{what}: expected str, bytes, bytearray or memoryview, not {type_name(text)}")


def to_str(text: bytes) -> str:
    """The text of bytes of a field."""
    return text.decode("latin-1")


def is_token(text: Text) -> bool:
    """Whether a text is a token (RFC 9110, section 5.6.2), and so may be the name of a parameter."""
    try:
        name = to_bytes(text, "token")
    except HeaderError:
        return False
    return _is_written(name, b"")


def is_value(text: bytes) -> bool:
    """Whether each byte is one that field values have (RFC 9110, section 5.5), and so a parameter's value may."""
    return _is_written(b"a", text)


def _is_written(name: bytes, value: bytes) -> bool:
    status, _ = calls.format_parameter(_PLAIN, name, value)
    if status == _NO_MEMORY:
        raise MemoryError
    return status != _REFUSED


def to_number(number: SupportsIndex, what: str, bits: int = 64) -> int:
    """A number that fits into so many bits."""
    try:
        value = int(operator.index(number))
    except TypeError:
        raise TypeError(f"{what}: expected int, not {type_name(number)}") from None
    if not 0 <= value < 1 << bits:
        raise HeaderError(f"{what}: {value} isn't from 0 to 2^{bits} - 1")
    return value


def check_types(made_of: object, /, **kinds: Union[type, Tuple[type, ...]]) -> None:
    """Raises an error if a member of a value isn't of its type: of the one that is said here, and the declared one."""
    for name, kind in kinds.items():
        given = getattr(made_of, name)
        if not isinstance(given, kind):
            names = [it.__name__ for it in (kind if isinstance(kind, tuple) else (kind,))]
            wanted = " or ".join("None" if it == "NoneType" else it for it in names)
            raise TypeError(f"{name}: expected {wanted}, not {type_name(given)}")
    check_members(made_of)


class Parsed:
    """A type whose `parse` is a function of the extension, which is bound to the type: Python calls it faster than a
    class method. A subclass may have another."""

    __slots__ = ()
    _PARSE = ""

    def __init_subclass__(cls) -> None:
        super().__init_subclass__()
        if isinstance(getattr(cls, "parse", calls.version), BuiltinFunctionType):
            setattr(cls, "parse", calls.bound(cls._PARSE, cls))


Value = TypeVar("Value")


def made(cls: Type[Value], **members: Any) -> Value:
    """A value of members that the library gave, so that they need no check."""
    value = object.__new__(cls)
    value.__dict__.update(members)
    return value


def to_pairs(given: Iterable[Tuple[str, str]], what: str) -> Tuple[Tuple[str, str], ...]:
    """Pairs of texts."""
    try:
        pairs = tuple((name, value) for name, value in given)
    except (TypeError, ValueError):
        raise TypeError(f"{what}: expected pairs of str") from None
    if not all(isinstance(text, str) for pair in pairs for text in pair):
        raise TypeError(f"{what}: expected pairs of str")
    return pairs


def to_seconds(time: Time, what: str) -> int:
    """The seconds since 1970 of a time. A fraction of a second is cut off."""
    if not isinstance(time, datetime):
        if not isinstance(time, (int, SupportsIndex)):
            raise TypeError(f"{what}: expected datetime or int, not {type_name(time)}")
        return to_number(time, what)
    if time.tzinfo is None:
        raise HeaderError(f"{what}: {time} has no time zone: use one with tzinfo, as datetime.now(timezone.utc)")
    if time < EPOCH:
        raise HeaderError(f"{what}: {time} lies before 1970")
    return (time - EPOCH) // SECOND


def to_datetime(seconds: int) -> datetime:
    """The time that is so many seconds after the start of 1970."""
    return EPOCH + timedelta(seconds=seconds)


def to_lines(field: str, lines: Sequence[Text]) -> List[bytes]:
    """The field lines as bytes. None has a line end; the calls reject each other byte that no field value has."""
    found = [to_bytes(line, field) for line in lines]
    for line in found:
        if b"\n" in line or b"\r" in line:
            raise rejected(field, found)
    return found


def joined(lines: Sequence[bytes]) -> bytes:
    """The field lines as one text, as calls take them."""
    return b"\n".join(lines) + b"\n" if lines else b""


# What comes back


#: A byte that no field value has (RFC 9110, section 5.5): where it is, once the library has rejected a line.
NO_VALUE = re.compile(rb"[^\t -~\x80-\xff]")


def rejected(field: str, lines: Sequence[bytes], reason: str = "") -> InvalidField:
    """That these lines encode no value of the field, and where a byte is wrong."""
    for number, line in enumerate(lines):
        wrong = NO_VALUE.search(line)
        if wrong:
            at = f"byte {wrong.start()}" if len(lines) == 1 else f"byte {wrong.start()} of field line {number}"
            reason = f"{at} is 0x{wrong[0].hex().upper()}, which no field value has (RFC 9110, section 5.5)"
            return InvalidField(field, reason, lines, number, wrong.start())
    if not reason:
        grammar = FIELDS[field]
        reason = f"expected {grammar.expected} ({grammar.section})"
    if field in SECRETS:
        return InvalidField(field, reason, lines)
    shown = ", ".join(repr(to_str(line)) for line in lines) or "no field line"
    return InvalidField(field, f"{reason}, not {shown}", lines)


def check(status: int, refused: Callable[[], Exception]) -> None:
    """Raises what a status stands for."""
    if status == _REFUSED:
        raise refused()
    if status == _TOO_LARGE:
        raise TooLarge("the header section has more than 8,388,608 bytes or 24,576 names")
    if status == _NO_MEMORY:
        raise MemoryError


def failed(status: int, field: str, lines: Sequence[Text], reason: str = "") -> Exception:
    """What a status stands for that isn't DONE, of a call over field lines, of which there is at least one."""
    if status == _NO_MEMORY:
        return MemoryError()
    return rejected(field, to_lines(field, lines), reason)


def first_named(parameters: Tuple[Tuple[str, Value], ...], name: str) -> Optional[Value]:
    """The value of the first parameter that has a name, as the library finds it."""
    found = calls.first_named(parameters, name)
    if found is not NotImplemented or not parameters:
        return found
    names = tuple([it for it, _ in parameters])
    status, place = calls.parameter_place(names, to_bytes(name, "name"))
    if status == ABSENT:
        return None
    check(status, lambda: HeaderError(f"parameters: {names!r} are no names"))
    return parameters[place][1]


Number = Callable[[Tuple[Text, ...]], Tuple[int, int]]


def number(call: Number, field: str, lines: Tuple[Text, ...]) -> int:
    """The number that the field lines encode."""
    status, found = call(lines)
    if status:
        raise failed(status, field, lines)
    return found


def canonical_text(section: bytes) -> bytes:
    """The canonical text of a header section. A name whose field lines are rejected is the line `! NAME`."""
    status, found = calls.canonical(section)
    check(status, lambda: wrong_section("the header section", section))
    return found


def wrong_section(what: str, section: bytes) -> InvalidSection:
    """That a section has a line that is no field. The library says of each line by itself whether it is one."""
    for number, line in enumerate(section.split(b"\n")):
        line = line[:-1] if line.endswith(b"\r") else line
        if not line:
            break
        if calls.canonical(line + b"\n")[0] == _REFUSED:
            shown = to_str(line if len(line) <= 80 else line[:77] + b"...")
            return InvalidSection(f"{what}: line {number} is no field: {shown!r}", number)
    return InvalidSection(f"{what}: a line is no field")


def canonical_lines(field: str, lines: Sequence[bytes]) -> List[bytes]:
    """The field lines that the value of a known field encodes to. `InvalidField` if the given lines encode none."""
    status, found = calls.field(field.encode("ascii"), tuple(lines))
    if status:
        raise failed(status, field, lines)
    return found.split(b"\n")[:-1]
