"""A section that is parsed once answers as its text does."""

import copy
import pickle
import threading
import unittest
from typing import List, Sequence, Tuple, Union

from typed_headers import (
    Content,
    CorsPolicy,
    HeaderError,
    Headers,
    InvalidField,
    InvalidSection,
    Method,
    Representation,
    Resource,
    Section,
    Target,
    choose_coding,
    choose_language,
    choose_type,
    evaluate,
    look_up_language,
    respond,
    select,
)

Fields = List[Tuple[str, str]]

FIELDS: Fields = [
    ("Host", "b.example"),
    ("Origin", "https://a.example"),
    ("If-None-Match", '"a", W/"b"'),
    ("Range", "bytes=0-3, 200-"),
    ("Accept", "text/*;q=0.5, text/html"),
    ("Accept-Encoding", "gzip"),
    ("Accept-Language", "en-GB"),
    ("Cache-Control", "no-cache"),
    ("Cache-Control", "MAX-AGE=060"),
    ("Age", "old"),
]
POLICY = CorsPolicy("https://a.example", methods=["PUT"], max_age=60)
RESOURCE = Resource([Method("GET"), Method("PUT")], [Representation("text/plain", 1000, '"c"')], cors=POLICY)


def answers(request: Union[Headers, Fields]) -> Sequence[object]:
    """What is asked of a request, each question once."""
    target, tagged, content = Target(etag='"c"'), Target(etag='"a"'), Content(1000, "text/plain")
    return [
        evaluate("GET", request, target),
        evaluate("GET", request, tagged),
        select("GET", request, target, 1000),
        respond("GET", request, target, content),
        respond("PUT", request, target, content),
        choose_type(request, ["text/plain", "text/html"]),
        choose_coding(request, ["br", "gzip"]),
        choose_language(request, ["en-GB", "de"]),
        choose_language(request, ["fr"]),
        look_up_language(request, ["de", "en"]),
        POLICY.answer("PUT", request, {"Vary": "accept"}),
        RESOURCE.answer("GET", request),
        RESOURCE.answer("DELETE", request, version=10),
    ]


class Sections(unittest.TestCase):
    def test_the_answers_are_those_of_the_fields(self) -> None:
        for fields in (FIELDS, FIELDS[:1], FIELDS[:0], FIELDS[3:]):
            section = Section(fields)
            for _ in range(2):
                self.assertEqual(answers(section), answers(fields))
            self.assertEqual((section, section.pairs()), (Headers(fields), Headers(fields).pairs()))

    def test_canonical_field_lines(self) -> None:
        section = Section(FIELDS)
        for name in ("Cache-Control", "accept", "IF-NONE-MATCH", "date", "x-any"):
            self.assertEqual(section.canonical(name), Headers(FIELDS).canonical(name))
        with self.assertRaises(InvalidField) as raised:
            section.canonical("Age")
        self.assertEqual(raised.exception.field, "age")

    def test_what_is_no_section(self) -> None:
        with self.assertRaises(InvalidSection) as raised:
            Section("Age: 7\nno field\n")
        self.assertEqual(raised.exception.line, 1)

    def test_what_is_rejected(self) -> None:
        section = Section(FIELDS)
        for call in (
            lambda: evaluate("G T", section, Target()),
            lambda: select("GET", section, Target(exists=False), 10),
            lambda: respond("GET", section, Target(), Content(10), boundary=""),
            lambda: choose_type(section, ["a\x01"]),
            lambda: POLICY.answer("G T", section),
            lambda: POLICY.answer("GET", "no field\n"),
            lambda: POLICY.answer("GET", section, "no field\n"),
            lambda: RESOURCE.answer("G T", section),
            lambda: RESOURCE.answer("GET", section, target="http://"),
            lambda: RESOURCE.answer("GET", "no field\n"),
        ):
            self.assertRaises(HeaderError, call)
        self.assertEqual(answers(section), answers(FIELDS))

    def test_copies(self) -> None:
        section = Section(FIELDS)
        for made in (copy.copy(section), copy.deepcopy(section), pickle.loads(pickle.dumps(section)), Section(section)):
            self.assertEqual(answers(made), answers(FIELDS))
        for policy in (copy.deepcopy(POLICY), pickle.loads(pickle.dumps(POLICY))):
            self.assertEqual((policy, policy.answer("GET", section)), (POLICY, POLICY.answer("GET", section)))
        for resource in (copy.deepcopy(RESOURCE), pickle.loads(pickle.dumps(RESOURCE))):
            self.assertEqual((resource, resource.answer("GET", section)), (RESOURCE, RESOURCE.answer("GET", section)))

    def test_threads(self) -> None:
        section, wanted = Section(FIELDS), answers(FIELDS)
        found: List[bool] = []

        def ask() -> None:
            found.extend(answers(section) == wanted for _ in range(50))

        threads = [threading.Thread(target=ask) for _ in range(4)]
        for thread in threads:
            thread.start()
        for thread in threads:
            thread.join()
        self.assertEqual(found, [True] * 200)


if __name__ == "__main__":
    unittest.main()
