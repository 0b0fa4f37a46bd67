"""Header fields as lists of names and values. A value is a text with one character for each byte (Latin-1)."""
from collections.abc import Iterable, Sequence

Fields = list[tuple[str, str]]


def lines_of(fields: Iterable[Sequence[str]], name: str) -> list[str]:
    """The values of a field, in order, without white space around them."""
    return [value.strip(" \t") for other, value in fields if other.lower() == name]


def section(fields: Iterable[Sequence[str]]) -> bytes:
    """The fields as a header section, as the library takes it."""
    return "".join(f"{name}: {value}\n" for name, value in fields).encode("latin-1")


def members(lines: Iterable[str], has_escapes: bool = True) -> list[str]:
    """The members of a list field, empty ones too: cut at commas outside quoted-strings (RFC 9110, section 5.6.1).
    In a quoted-string a backslash escapes the next byte (section 5.6.4), but not in an entity tag (section 8.8.3)."""
    found, piece, is_quoted, is_escaped = [], "", False, False
    for byte in ", ".join(lines):
        if byte == "," and not is_quoted:
            found.append(piece)
            piece = ""
            continue
        piece += byte
        if is_escaped:
            is_escaped = False
        elif byte == "\\" and is_quoted and has_escapes:
            is_escaped = True
        elif byte == '"':
            is_quoted = not is_quoted
    return [it.strip(" \t") for it in [*found, piece]]
