"""Targeted fields as a second reading of RFC 9213, on dictionaries by the ABNF of RFC 8941, section 3."""
import re

from common.fields import Fields, lines_of

KEY = r"[a-z*][a-z0-9_\-.*]*"
DECIMAL = r"-?[0-9]{1,12}\.[0-9]{1,3}"
INTEGER = r"-?[0-9]{1,15}"
STRING = r'"(?:[\x20\x21\x23-\x5b\x5d-\x7e]|\\["\\])*"'
TOKEN = r"[A-Za-z*][!#$%&'*+\-.^_`|~0-9A-Za-z:/]*"
BYTES = r":[A-Za-z0-9+/=]*:"
BOOLEAN = r"\?[01]"
BARE = f"(?:{DECIMAL}|{INTEGER}|{STRING}|{TOKEN}|{BYTES}|{BOOLEAN})"
PARAMETERS = f"(?:;[ ]*{KEY}(?:={BARE})?)*"
ITEM = BARE + PARAMETERS
INNER = rf"\([ ]*(?:{ITEM}(?:[ ]+{ITEM})*[ ]*)?\)" + PARAMETERS
MEMBER = f"{KEY}(?:=(?:{INNER}|{ITEM})|{PARAMETERS})"
DICTIONARY = re.compile(rf"{MEMBER}(?:[ \t]*,[ \t]*{MEMBER})*")
# One member, with the end of the text or a comma behind it, so that a decimal isn't taken for an integer.
PART = re.compile(rf"({KEY})(?:=({INNER}|{ITEM})|{PARAMETERS})[ \t]*(?:,[ \t]*|$)")

FLAGS = ("must-revalidate", "proxy-revalidate", "must-understand", "no-store", "public", "immutable")
NAMING = ("no-cache", "private")
NUMBERS = ("max-age", "s-maxage", "stale-while-revalidate", "stale-if-error")


def dictionary(lines: list[str]) -> dict[str, str] | None:
    """The members of a field, each with the text of its value; `None` if it is malformed or empty. Choice: a value that
    is split over two lines is malformed (RFC 8941, section 4.2)."""
    if not lines or not all(DICTIONARY.fullmatch(line) for line in lines):
        return None
    found, text, place = {}, ", ".join(lines), 0
    while place < len(text):
        part = PART.match(text, place)
        assert part
        # "If dictionary already contains a key this_key, overwrite its value" (section 4.2.2)
        found[part[1]] = "?1" if part[2] is None else part[2]
        place = part.end()
    return found


def as_directive(name: str, text: str) -> str | None:
    """A member as a directive of Cache-Control, or `None` if its value has another type, so that it isn't consumed
    (RFC 9213, section 2.1)."""
    if text.startswith("("):
        return None
    value = re.match(BARE, text)
    assert value
    bare = value[0]
    if name in FLAGS + NAMING:
        return name if bare == "?1" or (name in NAMING and bare.startswith('"')) else None
    # Choice: an integer below zero is an invalid number, and so the strictest.
    return f"{name}={bare.replace('-', 'below')}" if name in NUMBERS and re.fullmatch(INTEGER, bare) else None


def effective(fields: Fields, targets: tuple[str, ...]) -> Fields:
    """The fields by which a cache decides: with a targeted field in place of Cache-Control and Expires, if there is one
    that is valid and not empty (section 2.2)."""
    for target in targets:
        found = dictionary([line.strip(" \t") for line in lines_of(fields, target)])
        if found is not None:
            said = [it for it in (as_directive(*member) for member in found.items()) if it is not None]
            others = [it for it in fields if it[0].lower() not in ("cache-control", "expires")]
            return others + ([("cache-control", ", ".join(said))] if said else [])
    return fields
