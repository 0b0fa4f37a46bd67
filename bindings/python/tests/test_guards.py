"""What the extension does by itself, for speed: it answers as the library does, by all pairs of bytes and random texts.
"""

import os
import unittest
from itertools import product
from random import Random
from typing import Callable, Iterator, List, Optional, Tuple

from typed_headers import CacheControl, Cookie, ETags, Headers, InvalidField, MediaType, _library, find_cookie
from typed_headers.errors import HeaderError

calls = _library.calls
BYTES = [bytes([code]) for code in range(256)]
#: All texts of two bytes, and of fewer.
SHORT = [b"", *BYTES, *(one + other for one, other in product(BYTES, BYTES))]
RANDOM = Random(int(os.environ.get("TYPED_HEADERS_SEED", "1")))
ROUNDS = int(os.environ.get("TYPED_HEADERS_CALLS", "3000"))


def drawn(words: str) -> Iterator[str]:
    """Texts of words, which are between bars."""
    pieces = words.split("|")
    for _ in range(ROUNDS):
        yield "".join(RANDOM.choices(pieces, k=RANDOM.randrange(10)))


def field(name: bytes, value: bytes) -> Optional[Tuple[str, str]]:
    """The name and the value of a field, of which the library writes its canonical text; none if it rejects them, or if
    they would be another line."""
    if b":" in name or b"\n" in name + value or b"\r" in name + value:
        return None
    status, text = calls.canonical(name + b": " + value + b"\n")
    if status == 1:
        return None
    assert status == 0, (name, value, status)
    shown, _, line = text.decode("latin-1")[:-1].partition(": ")
    return shown, line


def outcome(call: Callable[[], object]) -> object:
    try:
        return call()
    except HeaderError as error:
        return type(error)


class Fields(unittest.TestCase):
    def assert_same(self, name: bytes, value: bytes) -> None:
        """The extension takes a field if the library does, and has its name and value; the package rejects others."""
        wanted, given = field(name, value), (name.decode("latin-1"), value.decode("latin-1"))
        self.assertEqual(calls.pair(*given), wanted, (name, value))
        self.assertEqual(calls.section((given,)), wanted and name + b": " + value + b"\n")
        if wanted:
            self.assertEqual(Headers([given]).pairs(), [wanted])
        else:
            with self.assertRaises(InvalidField):
                Headers([given])

    def test_all_pairs_of_bytes(self) -> None:
        for text in SHORT:
            # (no header of the library has a name with a dot)
            self.assert_same(b"." + text, b"a")
            self.assert_same(text + b".", b"a")
            self.assert_same(b"x.a", text)

    def test_random_fields(self) -> None:
        for text in drawn("a|Z|0|!|~|.|-|:| |\t|\n|\r|\0|\x7f|\x80|\xff|é|(|\"|,"):
            self.assert_same(b"." + text.encode("latin-1"), text.encode("latin-1"))
            self.assert_same(b"x.a", b"a" * RANDOM.randrange(600) + text.encode("latin-1"))

    def test_sections(self) -> None:
        """A text that is a section has the fields that its canonical text has, of names without a header."""
        for text in [*(b"." + it + b"a: b" for it in SHORT), *(b".a: " + it for it in SHORT), *self.sections()]:
            status, wanted = calls.canonical(text)
            if status == 0:
                lines = Headers(text)._state.named()
                shown = "".join(f"{name}: {line}\n" for name, found in lines.items() for line in found)
                self.assertEqual(shown.encode("latin-1"), wanted, text)

    def test_names_past_ascii(self) -> None:
        """A letter past ASCII is none of a name, though its lower case is."""
        fields = Headers({"k": "1"})
        self.assertEqual((fields["K"], fields.lines("\u212a"), "\u212a" in fields), ("1", (), False))
        with self.assertRaises(KeyError):
            fields["\u212a"]

    def sections(self) -> List[bytes]:
        words = ".a: b\n|.A:\r\n|.b:c\n|.C: d \t\r\n|.c:\t\n|\n|\r\n|.d: é:|\r|:| "
        return [text.encode("latin-1") for text in drawn(words)]


class Values(unittest.TestCase):
    def test_cache_control(self) -> None:
        """Which of two ways a field is parsed doesn't count."""
        words = (
            "max-age|=|1|,| |no-cache|private|NO-Cache|stale-|stale-if-error=2|Stale-While-Revalidate=3|\"|a|public|;|"
            'no-cache="a, b"|private=b|max-age=060|\t'
        )
        for line in drawn(words):
            given = outcome(lambda: CacheControl.parse(line))
            self.assertEqual(given, outcome(lambda: CacheControl._otherwise(0, (line,))), line)

    def test_media_types(self) -> None:
        """Parameters are those of the element that the library finds in the canonical text."""
        for line in drawn('a/b|;|c=d|"|\\|\\"|e="f;g"|H="i\\"j, k"| |=|l|C=m|charset=UTF-8|,'):
            try:
                found = MediaType.parse("a/b;" + line)
            except InvalidField:
                continue
            (first, *parts), = calls.groups(None, str(found), (), 0)  # type: ignore[misc]
            self.assertEqual(first, ("v", found.essence, None))
            self.assertEqual([name for name, _ in found.parameters], [name for _, name, _ in parts])
            for _, name, _ in parts:
                value = next(value for _, other, value in parts if other == name)
                self.assertEqual((found.parameter(name), found.parameter(name.upper())), (value, value), line)

    def test_cookies(self) -> None:
        """The first of several cookies is the one that the library finds."""
        for line in drawn("a|b|=|;| |; |A|\"|,|é|c=d"):
            found = Cookie.parse("x;" + line)
            for name in ("a", "A", *(name for name, _ in found.pairs)):
                self.assertEqual(found.get(name), find_cookie(name, "x;" + line), line)

    def test_tags(self) -> None:
        """Lines without tags are `*` alone, or nothing."""
        for line in drawn('*|,| |\t|"a"|W/|a|é'):
            found = outcome(lambda: ETags.parse(line))
            if not isinstance(found, ETags) or not found.tags:
                wanted = {"": ETags(), "*": ETags(is_any=True)}.get(line.strip(", \t"), InvalidField)
                self.assertEqual(found, wanted, line)


if __name__ == "__main__":
    unittest.main()
