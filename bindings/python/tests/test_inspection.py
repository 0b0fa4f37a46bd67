"""The command `typed-headers`."""

import contextlib
import io
import json
import sys
import tempfile
import time
import unittest
from typing import Tuple
from unittest import mock

from typed_headers import Decision, HeaderError, Precondition
from typed_headers.__main__ import main
from typed_headers.inspection import Head, inspect, parse_heads

HEAD = (
    "HTTP/1.1 103 Early Hints\r\nLink: x\r\n\r\n"
    "HTTP/2 200 \r\nDate: Sun, 06 Nov 1994 08:49:37 GMT\r\nCache-Control: private, MAX-AGE=060\r\n"
    'ETag: W/"a"\r\nAccess-Control-Allow-Origin: *\r\nAge: x\r\nno field\r\nX-Any: \x9b31m\r\n\r\nAge: 7\r\n'
)
BOTH = (
    '* Connected\n> GET / HTTP/1.1\n> If-None-Match: "a"\n> Range: bytes=0-4\n> \n'
    '< HTTP/1.1 200 OK\n< ETag: "a"\n< \n{ [5 bytes data]\n'
)


def run(text: str, *words: str) -> Tuple[int, str]:
    output = io.TextIOWrapper(io.BytesIO(), "utf-8", write_through=True)
    stdin = mock.Mock(buffer=io.BytesIO(text.encode("latin-1")))
    with mock.patch.object(sys, "stdin", stdin), contextlib.redirect_stdout(output):
        with contextlib.redirect_stderr(output):
            status = main(words)
    output.seek(0)
    return status, output.read()


class Heads(unittest.TestCase):
    def test_what_curl_prints(self) -> None:
        request, response = parse_heads(HEAD)
        assert response is not None
        self.assertIsNone(request)
        self.assertEqual((response.status, response.start), (200, "HTTP/2 200 "))
        self.assertEqual(response.wrong, ((7, "no field"),))
        self.assertNotIn(b"Link", response.section)
        request, response = parse_heads(BOTH)
        assert request is not None and response is not None
        self.assertEqual((request.method, response.status), ("GET", 200))
        self.assertEqual(request.section, b'If-None-Match: "a"\nRange: bytes=0-4\n')

    def test_no_start_line(self) -> None:
        self.assertEqual(parse_heads("Age: 7"), (None, Head(None, 200, "", b"Age: 7\n")))
        self.assertEqual(parse_heads(""), (None, None))


class Reports(unittest.TestCase):
    def test_response(self) -> None:
        report = inspect(HEAD, received=784111787)
        fields = {it.name: it for it in report.fields}
        self.assertEqual(fields["cache-control"].canonical, ("private, max-age=60",))
        self.assertIn("not 'x'", str(fields["age"].error))
        self.assertFalse(fields["x-any"].is_known or report.is_valid)
        assert report.browser_cache and report.shared_cache and report.cors and report.validators
        self.assertEqual((report.browser_cache.may_store, report.shared_cache.may_store), (True, False))
        self.assertEqual((report.browser_cache.lifetime, report.browser_cache.age), (60, 10))
        self.assertIs(report.browser_cache.decision, Decision.SERVE)
        self.assertEqual(report.cors.allow_origin, "*")
        self.assertEqual((report.validators.etag, report.validators.is_weak), ('W/"a"', True))
        self.assertEqual(report.validators.fields, (("if-none-match", 'W/"a"'),))

    def test_request(self) -> None:
        report = inspect("GET / HTTP/1.1\nRange: bytes=0-4\n", length=3)
        assert report.selection
        self.assertEqual((report.selection.status, report.selection.ranges[0].last), (206, 2))
        self.assertIsNone(report.browser_cache)

    def test_ports(self) -> None:
        # RFC 3986, section 3.2: an authority's port is digits; RFC 9293, section 3.1: it has 16 bits. RFC 9110, section
        # 4.2.4: a user is an error.
        for name, start in (("Host", ""), ("Origin", "http://")):
            for host, is_valid in (("a:65535", True), ("a:65536", False), ("[::1]:99999", False), ("u@a", False)):
                report = inspect(f"GET / HTTP/1.1\n{name}: {start}{host}\n")
                self.assertIs(report.is_valid, is_valid, host)
                self.assertIs(report.fields[0].canonical is None, not is_valid, host)
                self.assertEqual(f"not '{start}{host}'" in str(report.fields[0].error), not is_valid)

    def test_both(self) -> None:
        report = inspect(BOTH, length=10)
        self.assertIs(report.precondition, Precondition.NOT_MODIFIED)
        self.assertIsNone(report.selection)

    def test_fields_in_order(self) -> None:
        report = inspect("B: 1\nA: 2\nb: 3\n")
        self.assertEqual([(it.name, it.lines) for it in report.fields], [("b", ("1", "3")), ("a", ("2",))])

    def test_twice_the_fields_take_twice_the_time(self) -> None:
        def seconds(count: int) -> float:
            text = "HTTP/1.1 200 OK\n" + "".join(f"X-{place}: {place}\n" for place in range(count))
            times = []
            for _ in range(5):
                began = time.process_time()
                inspect(text, received=1000)
                times.append(time.process_time() - began)
            return min(times)

        self.assertLess(seconds(4000), 3.2 * seconds(2000))

    def test_byte(self) -> None:
        with self.assertRaisesRegex(HeaderError, "no head"):
            inspect("\n")


class Command(unittest.TestCase):
    def test_text(self) -> None:
        status, text = run(HEAD, "inspect", "--received", "Sun, 06 Nov 1994 08:49:47 GMT")
        self.assertEqual(status, 1)
        for part in (
            "line 7                       is no field (RFC 9112, section 5): no field",
            "cache-control                private, max-age=60",
            "fresh for 60 seconds; it is 10 seconds old",
            "shared   may not store it",
            "if-none-match: W/\"a\"",
            "\\x9b31m",
        ):
            self.assertIn(part, text)
        self.assertNotIn("\033", text)
        self.assertIn("\033[31m", run(HEAD, "inspect", "--colour", "always")[1])

    def test_json(self) -> None:
        status, text = run(HEAD, "inspect", "--json")
        given = json.loads(text)
        self.assertEqual((status, given["is_valid"], given["head"]["status"]), (1, False, 200))
        self.assertEqual(given["browser_cache"]["lifetime"], 60)
        self.assertEqual(given["fields"][1]["canonical"], ["private, max-age=60"])

    def test_file_and_statuses(self) -> None:
        with tempfile.NamedTemporaryFile("w") as file:
            file.write("HTTP/1.1 200 OK\nAge: 7\n")
            file.flush()
            self.assertEqual(run("", "inspect", file.name)[0], 0)
        self.assertEqual(run("", "inspect")[0], 2)
        self.assertEqual(run("", "inspect", "/no/such/file")[0], 2)
        for words in ((), ("inspect", "--length", "-1"), ("inspect", "--received", "x"), ("other",)):
            with self.assertRaises(SystemExit) as caught:
                run("", *words)
            self.assertEqual(caught.exception.code, 2)

    def test_canon(self) -> None:
        self.assertEqual(run("Age: +7\n", "canon"), (0, "age: 7\n"))
        self.assertEqual(run("Age: x\n", "canon"), (1, "! age\n"))
        self.assertEqual(run("no field", "canon")[0], 2)
