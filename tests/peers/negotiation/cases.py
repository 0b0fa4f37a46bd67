"""Random fields of content negotiation, and what a server offers. Quoted-strings have escapes, separators and bytes
past ASCII (RFC 9110, section 5.6.4)."""
import random
from collections.abc import Iterator
from dataclasses import dataclass
from itertools import chain, islice

FIELDS = {"accept": "Accept", "encoding": "Accept-Encoding", "language": "Accept-Language"}
TYPES = ["text/html", "text/plain", "text/html;level=1", "text/html;level=2", "text/plain;format=flowed",
         "application/json", "application/xml", "image/png", "image/jpeg", "text/html;charset=utf-8",
         'text/html;charset="utf-8"', "application/xhtml+xml", "TEXT/CSS", "application/vnd.api+json"]
MEDIA = ["*/*", "text/*", "image/*", "application/*", "text/html", "text/plain", "text/html;level=1", "TEXT/HTML",
         "text/html;level=2", "text/plain;format=flowed", "application/json", "image/png", "text/html;charset=UTF-8",
         'text/html;charset="utf-8"', "text/*;level=1", "text/html; level=1", "application/xhtml+xml", "audio/*",
         "Text/Css", "text/html;level=1;charset=utf-8", "application/vnd.api+json", 'text/plain;x="a,b"']
BAD_MEDIA = ["*", "text", "/html", "text/", "*/html", "text/html/x", "text /html", "te;xt/html", ";q=1", "text/html;",
             "text/html;;level=1", "text/html;level", "text/html;level=", "text/html q=0.5", '"text/html"', "text/h*",
             'text/html;x="a', 'text/html;x="\\"', "text/html;x=\xe9", "t\xe9xt/html"]
CODINGS = ["gzip", "br", "deflate", "identity", "zstd", "x-gzip", "compress", "GZIP", "x-compress"]
BAD_CODINGS = ["gz ip", "", "gzip=1", '"br"', "g\xe9ip", 'gzip;x="a']
LANGUAGES = ["en", "en-US", "en-GB", "de", "de-CH", "de-Latn-CH", "fr", "zh-Hant-TW", "zh-Hans", "zh", "sr-Latn",
             "EN-us",
             "i-klingon", "x-a"]
RANGES = ["en", "en-US", "en-us", "en-GB", "de", "de-CH", "de-DE", "fr", "fr-CA", "zh", "zh-Hant", "zh-Hans", "*", "EN",
          "sr", "en-GB-oed", "i-klingon", "i"]
BAD_RANGES = ["en_US", "*-CH", "en-", "-en", "englishlanguage", "e n", "en;", "d*", "1en", "", "\xe9n", 'en;x="a']
# Malformed elements, which exclude nothing, with what is acceptable beside them. The first is what a client in Java sends.
BROKEN = {
    "accept": (["text/html, image/gif, image/jpeg, *; q=.2, */*; q=.2", "text/html;q=2", "text/*;q=high", "*/*;q=",
                "text/html;level;q=1", "*/*;q=00", "text/html;q=1.001, text/plain;q=0", 'text/html;level="1',
                'text/html;x="a, application/json', 'text/html, application/json;q="', 'text/*;q=0, */*;q=0, "'],
               [["text/html"], ["application/json"], ["application/json", "text/html"]]),
    "encoding": (["gzip;q=1.0000", "gzip, br;level=5", "gzip;q=2, *;q=0.5", "br;q=high, identity;q=0",
                  "deflate;level=9;q=0", "identity;q=2, *;q=0", "*;q=00", 'gzip;q="1'],
                 [["identity"], ["identity", "gzip"]]),
    "language": (["en;q=2", "en;q=.5", "*;q=high", "en-GB;q=1.001, en;q=0", "en;level=1", "*;q=00", "de, en;q=",
                  'de;q="1', 'en;q=0, de;q="1'], [["en"], ["de", "en-GB"]]),
}
WEIGHTS = ["", "", "", ";q=1", ";q=0.5", ";q=0", "; q=0.8", " ; q=0.3", ";q=0.001", ";q=0.9", ";q=1.0", ";q=1.000",
           ";q=0.0", ";q=0.000", ";q=0.5", ";q=0.7", ";Q=0.6", ";q=0."]
BAD_WEIGHTS = [";q=2", ";q=1.5", ";q=-1", ";q=.5", ";q=0.0001", ";q=abc", ";q=", ";q", ';q="0.5"', ";q=0,5", ";q = 0.5",
               ";q=0.5;q=0.1", ";q=1.001", ";q=0.9999", ";q= 0.5", ";q=1e-1", ";q=00.5", ";q=NaN"]
# What a quoted-string may have.
QUOTED_PIECES = ["a", "b", ",", ";", "=", " ", '\\"', "\\\\", "\\a", "\\,", "\\;", "\xe9", "\xc3\xa9", "\xff", "\\\xe9",
                 ", text/html", ";q=0", ",*/*", "\t"]
POOLS = {"accept": (MEDIA, BAD_MEDIA, TYPES), "encoding": (CODINGS + ["*"], BAD_CODINGS, CODINGS),
         "language": (RANGES, BAD_RANGES, LANGUAGES)}


@dataclass
class Case:
    """The field lines (none: the field isn't there), and the offers, the most wanted first."""

    dimension: str
    lines: list[str]
    offers: list[str]


def quoted(draw: random.Random) -> str:
    return '"' + "".join(draw.choice(QUOTED_PIECES) for _ in range(draw.choice([0, 1, 1, 2, 3]))) + '"'


def element(draw: random.Random, dimension: str, is_bad: bool) -> str:
    good, bad, _ = POOLS[dimension]
    if is_bad and draw.random() < 0.5:
        return draw.choice(bad) + draw.choice(WEIGHTS)
    name = draw.choice(good)
    if dimension == "accept" and draw.random() < 0.15:
        name += f";x={quoted(draw)}"
    if is_bad and draw.random() < 0.7:
        return name + draw.choice(BAD_WEIGHTS)
    return name + draw.choice(WEIGHTS)


def lines_of(draw: random.Random, dimension: str) -> list[str]:
    if draw.random() < 0.03:
        return draw.choice([[], [""], ["*/*" if dimension == "accept" else "*"]])
    is_bad = draw.random() < 0.15
    found = [element(draw, dimension, is_bad) for _ in range(draw.choice([1, 1, 2, 2, 3, 3, 4, 5, 8]))]
    if draw.random() < 0.05:
        found.insert(draw.randrange(len(found) + 1), "")
    lines: list[list[str]] = [[]]
    for it in found:
        if lines[-1] and draw.random() < 0.08:
            lines.append([])
        lines[-1].append(it)
    return [draw.choice([", ", ", ", ",", " , "]).join(it).strip(" \t") for it in lines]


def case(draw: random.Random) -> Case:
    dimension = draw.choice(["accept", "accept", "encoding", "encoding", "language", "language"])
    offers = draw.sample(POOLS[dimension][2], draw.choice([1, 2, 2, 3, 3, 4]))
    if dimension == "accept" and draw.random() < 0.1:
        offers[0] = f"text/plain;x={quoted(draw)}"
    if dimension == "encoding" and draw.random() < 0.6 and "identity" not in offers:
        offers.insert(draw.randrange(len(offers) + 1), "identity")
    return Case(dimension, lines_of(draw, dimension), offers)


def cases(seed: int, count: int) -> Iterator[Case]:
    draw = random.Random(seed)
    broken = [Case(dimension, [line], offers) for dimension, (lines, some) in BROKEN.items() for line in lines
              for offers in some]
    return islice(chain(broken, (case(draw) for _ in range(count))), count)
