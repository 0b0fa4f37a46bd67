"""Many messages at once: files of WARC and HAR, and what curl prints."""

import contextlib
import gzip
import io
import json
import os
import pickle
import tempfile
import unittest
from collections import Counter
from typing import Dict, List, Tuple

from typed_headers.__main__ import main
from typed_headers.audit import Exchange, UnreadableFile, count_partition, findings, map_partition, read_exchanges

RESPONSE = b"HTTP/1.1 200 OK\r\nCache-Control: max-age=60\r\nETag: \"a\"\r\n\r\ncontent\r\nHTTP/1.1 500 Not a head\r\n"
HEAD = b"HTTP/1.1 200 OK\r\nCache-Control: max-age=60\r\nETag: \"a\"\r\n"


def record(kind: str, number: str, content: bytes, **named: str) -> bytes:
    fields = {"WARC-Type": kind, "WARC-Record-ID": number, "WARC-Target-URI": f"https://a.example/{number}"}
    fields.update({f"WARC-{name.replace('_', '-')}": value for name, value in named.items()})
    fields["Content-Length"] = str(len(content))
    lines = "".join(f"{name}: {value}\r\n" for name, value in fields.items())
    return f"WARC/1.0\r\n{lines}\r\n".encode() + content + b"\r\n\r\n"


def exchanges(content: bytes) -> List[Exchange]:
    with tempfile.TemporaryFile() as file:
        file.write(content)
        file.seek(0)
        return list(read_exchanges(file))


def run(content: bytes, *words: str) -> Tuple[int, str, str]:
    output, errors = io.StringIO(), io.StringIO()
    with tempfile.TemporaryDirectory() as folder:
        name = os.path.join(folder, "file")
        with open(name, "wb") as file:
            file.write(content)
        with contextlib.redirect_stdout(output), contextlib.redirect_stderr(errors):
            status = main(["audit", "--jobs", "1", *words, name])
    return status, output.getvalue(), errors.getvalue()


class Files(unittest.TestCase):
    def test_warc(self) -> None:
        asked = b"GET / HTTP/1.1\r\nIf-None-Match: \"a\"\r\n\r\n"
        content = b"".join([
            record("warcinfo", "1", b"software: x\r\n"),
            record("request", "2", asked),
            record("response", "3", RESPONSE, Concurrent_To="2", Date="1994-11-06T08:49:37.25Z"),
            record("response", "4", RESPONSE, Date="1994-11-06T08:49:38Z"),
            record("request", "5", asked, Concurrent_To="4"),
            record("response", "6", RESPONSE, Concurrent_To="2"),
        ])
        for given in (content, gzip.compress(content[:200]) + gzip.compress(content[200:])):
            found = exchanges(given)
            self.assertEqual([it.url[-1] for it in found], ["3", "4", "6"])
            self.assertEqual([it.received for it in found], [784111777, 784111778, None])
            self.assertEqual([it.request for it in found], [asked[:-2], asked[:-2], b""])
            self.assertEqual({it.response for it in found}, {HEAD})
        with self.assertRaises(UnreadableFile):
            exchanges(content[:-30])
        with self.assertRaises(UnreadableFile):
            exchanges(content + b"x\r\n")
        with self.assertRaises(UnreadableFile):
            exchanges(gzip.compress(content)[:-20])

    def test_har(self) -> None:
        def fields(**named: str) -> List[Dict[str, str]]:
            return [{"name": name.replace("_", "-"), "value": value} for name, value in named.items()]

        entry = {
            "startedDateTime": "2026-11-28T12:00:00.123+01:00",
            "request": {"method": "GET", "url": "https://a.example/x", "headers": fields(Accept="*/*")},
            "response": {"status": 200, "headers": fields(Cache_Control="no-store")},
        }
        found = exchanges(json.dumps({"log": {"entries": [entry]}}).encode())
        self.assertEqual(len(found), 1)
        self.assertEqual(found[0].received, 1795863600)
        self.assertEqual(findings(found[0])["shared_cache"]["may_store"], False)
        for wrong in (b"{", b"{}", b'{"log": {"entries": [{}]}}'):
            with self.assertRaises(UnreadableFile):
                exchanges(wrong)

    def test_what_browsers_write(self) -> None:
        fields = [{"name": "Cache-Control", "value": "no-store"}, {"name": "Set-Cookie", "value": "a=b\nc=d"}]
        request = {"method": "GET", "url": "u", "headers": []}
        responses = [{"status": 200, "headers": fields}, {"status": 0, "headers": []}]
        entries = [{"request": request, "response": response} for response in responses]
        answered, blocked = map(findings, exchanges(json.dumps({"log": {"entries": entries}}).encode()))
        self.assertEqual((answered["findings"], answered["fields"][1]["lines"]), ([], ["a=b", "c=d"]))
        self.assertEqual(blocked["findings"], ["not_judged"])

    def test_what_crawlers_write(self) -> None:
        lookup = b"20210101000000\na.example.\t300\tIN\tA\t192.0.2.1\n"
        named = b"WARC-Type: response\r\nContent-Type: text/dns\r\nContent-Length: %d\r\n" % len(lookup)
        given = b"WARC/1.0\r\n" + named + b"\r\n" + lookup + b"\r\n\r\n" + record("response", "1", RESPONSE)
        self.assertEqual([it.response for it in exchanges(given)], [HEAD])

    def test_what_curl_prints(self) -> None:
        found = exchanges(b"HTTP/2 301 \r\nLocation: /\r\n\r\n" + RESPONSE[: -len(b"HTTP/1.1 500 Not a head\r\n")])
        self.assertEqual([it.response.split(b"\r\n")[0] for it in found], [b"HTTP/2 301 ", b"HTTP/1.1 200 OK"])
        self.assertEqual(exchanges(b"Age: 7\n")[0].response, b"Age: 7\n")
        with self.assertRaises(UnreadableFile):
            exchanges(b"nothing")

    def test_large(self) -> None:
        content = record("response", "1", HEAD + b"\r\n" + b"x" * 3_000_000) * 3
        self.assertEqual([it.response for it in exchanges(content)], [HEAD] * 3)


class Found(unittest.TestCase):
    def test_findings(self) -> None:
        for lines, wanted in (
            ("Cache-Control: max-age=60\nETag: \"a\"\n", []),
            ("Cache-Control: max-age=60\nETag: \"a\"\nSet-Cookie: a=b\n", ["stored_with_cookie"]),
            ("Cache-Control: private\n", []),
            ("ETag: \"a\"\n", ["stored_without_lifetime"]),
            ("Cache-Control: max-age=60\n", ["no_validator"]),
            ("Cache-Control: no-store\nAccess-Control-Allow-Origin: *\n", ["read_by_all_origins"]),
            (
                "Cache-Control: no-store\nAccess-Control-Allow-Origin: https://a.example\n"
                "Access-Control-Allow-Credentials: true\n",
                ["read_with_credentials"],
            ),
            ("Cache-Control: no-store\nAge: x\nno field\n", ["malformed_line", "malformed_field"]),
        ):
            found = findings(Exchange("u", b"HTTP/1.1 200 OK\n" + lines.encode()))
            self.assertEqual((found["url"], found["findings"]), ("u", wanted))
        self.assertEqual(findings(Exchange("u", b"\n"))["findings"], ["not_judged"])

    def test_partitions(self) -> None:
        given = [Exchange("u", HEAD, received=784111777)] * 3
        found = map_partition(pickle.loads(pickle.dumps(given)))
        self.assertEqual(found, [findings(given[0])] * 3)
        self.assertEqual(json.loads(json.dumps(found)), found)

    def test_counts_of_partitions(self) -> None:
        wrong = Exchange("u", b"HTTP/1.1 200 OK\nCache-Control: no-store\nAge: x\nDate: x\nno field\n")
        given = [Exchange("u", HEAD), wrong, Exchange("u", b"\n"), wrong]
        counts = count_partition(given[:2])
        counts.add(pickle.loads(pickle.dumps(count_partition(given[2:]))))
        found = map_partition(given)
        self.assertEqual(counts.responses, 4)
        self.assertEqual(counts.findings, Counter(name for it in found for name in it["findings"]))
        self.assertEqual(list(counts.malformed.items()), [("age", 2), ("date", 2)])


class Command(unittest.TestCase):
    def test_counts(self) -> None:
        content = record("response", "1", b"HTTP/1.1 200 OK\r\nAge: x\r\nCache-Control: no-store\r\n\r\n") * 2
        status, output, errors = run(content + record("response", "2", RESPONSE))
        self.assertEqual((status, errors), (1, ""))
        self.assertIn("           3  responses\n", output)
        self.assertIn("           2   66.7 %  malformed_field", output)
        self.assertIn("           2           malformed age\n", output)

    def test_lines(self) -> None:
        status, output, errors = run(record("response", "1", RESPONSE) * 2, "--json")
        self.assertEqual((status, errors, len(output.splitlines())), (0, "", 2))
        self.assertEqual(json.loads(output.splitlines()[0])["url"], "https://a.example/1")

    def test_processes(self) -> None:
        status, output, _ = run(record("response", "1", RESPONSE) * 1201, "--json", "--jobs", "2")
        self.assertEqual((status, len(output.splitlines())), (0, 1201))

    def test_damaged_files(self) -> None:
        status, output, errors = run(record("response", "1", RESPONSE) + b"WARC/1.0\r\nContent-Length: x\r\n\r\n")
        self.assertEqual(status, 2)
        self.assertIn("           1  responses\n", output)
        self.assertIn("needs a Content-Length, not 'x'", errors)
