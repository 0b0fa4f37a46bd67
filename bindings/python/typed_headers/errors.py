"""What the package raises."""

from typing import Any, Optional, Sequence, Tuple

__all__ = ["HeaderError", "InvalidField", "InvalidSection", "StorageError", "TooLarge"]


class HeaderError(ValueError):
    """The library rejects an argument. The message says which one and why."""


class InvalidField(HeaderError):
    """Field lines that encode no value.

    >>> import typed_headers
    >>> typed_headers.age("7 days")
    Traceback (most recent call last):
    ...
    typed_headers.errors.InvalidField: age: expected a number of seconds below 2^64 in a single field line \
(RFC 9111, section 5.1), not '7 days'
    """

    #: The field's name, in lower case.
    field: str
    #: The field lines.
    lines: Sequence[bytes]
    #: The number of the line that is rejected, from 0, or `None` if the library doesn't say.
    line: Optional[int]
    #: The place in that line of the first byte that is rejected, from 0, or `None` if the library doesn't say.
    byte: Optional[int]
    #: Why the lines are rejected, without the name.
    reason: str

    def __init__(
        self,
        field: str,
        reason: str,
        lines: Sequence[bytes] = (),
        line: Optional[int] = None,
        byte: Optional[int] = None,
    ) -> None:
        super().__init__(f"{field}: {reason}")
        self.field, self.lines, self.line, self.byte, self.reason = field, tuple(lines), line, byte, reason

    def __reduce__(self) -> Tuple[Any, ...]:
        # An exception is made again of its `args`, which are the message alone.
        return type(self), (self.field, self.reason, self.lines, self.line, self.byte), self.__dict__


class InvalidSection(HeaderError):
    """A header section with a line that is no field: a name, a colon and a value (RFC 9112, section 5)."""

    #: The number of the line, from 0, or `None` if the library doesn't say.
    line: Optional[int]

    def __init__(self, message: str, line: Optional[int] = None) -> None:
        super().__init__(message)
        self.line = line


class StorageError(RuntimeError):
    """A storage behind a cache fails: it can't be reached, or is busy for too long."""


class TooLarge(HeaderError):
    """An argument is longer, or has more names, than the library takes."""
