"""Lets each allocation of the server fail in turn, one a run, while it answers the same requests over one connection.

    allocations.py PROGRAM FOLDER

FOLDER is that of folder.py. What the program then writes has to be what it writes otherwise, or the front of that: no
byte is wrong, and none is left out. If it is less, the connection ended with status 1, or the program did before it
read a request, with a message and status 1 or 2. tools/refuse.c is the allocator, which cc builds. The last line counts
the runs; the status is 0 if none is found wanting.
"""
import os
import re
import subprocess
import sys
import tempfile
from concurrent.futures import ThreadPoolExecutor
from pathlib import Path

ALLOCATOR = Path(__file__).resolve().parents[2] / "tools/refuse.c"
OPTIONS = ["--no-dates", "--precompressed", "--cors-origin", "https://a.example", "--cache-control", "max-age=60"]
RUNS_AT_ONCE = 2


def request(method, target, *fields, body=b""):
    return "\r\n".join([f"{method} {target} HTTP/1.1", "Host: a", *fields, "", ""]).encode() + body


REQUESTS = [
    request("GET", "/hello.txt"),
    request("GET", "/hello.txt"),  # which is kept by now
    request("HEAD", "/big.bin"),
    request("GET", "/big.bin"),
    request("GET", "/big.bin", "Range: bytes=5-9"),
    request("GET", "/big.bin", "Range: bytes=0-9,100000-100009,-3"),
    request("GET", "/hello.txt", 'If-None-Match: "other", *', "Accept-Encoding: gzip"),
    request("GET", "/hello.txt", "If-Modified-Since: Tue, 14 Nov 2023 22:13:20 GMT"),
    request("GET", "/hello.txt", 'If-Match: "other"'),
    request("GET", "/hello.txt", "Range: bytes=13-"),
    request("GET", "/coded.css", "Accept-Encoding: gzip;q=0.5, br"),
    request("GET", "/sub", "Origin: https://a.example"),
    request("GET", "/sub/", "Origin: https://b.example"),
    request("OPTIONS", "/a", "Origin: https://a.example", "Access-Control-Request-Method: GET",
            "Access-Control-Request-Headers: range"),
    request("POST", "/hello.txt", "Content-Length: 5", body=b"hello"),
    request("PUT", "/hello.txt", "Transfer-Encoding: chunked", "Expect: 100-continue", body=b"5\r\nhello\r\n0\r\n\r\n"),
    request("GET", "/gr%C3%BCn.txt?" + "x" * 3000),
    request("GET", "/nothing"),
    request("GET", "/away/secret.txt"),
    request("GET", "/%"),
    b"GET /hello.txt HTTP/1.1\r\n\r\n",  # no Host: 400, and the connection ends
]


class Runs:
    def __init__(self, program, folder, room):
        self.words, self.room = [program, *OPTIONS, folder], Path(room)
        subprocess.run(["cc", "-O2", "-shared", "-fPIC", "-o", self.room / "refuse.so", ALLOCATOR], check=True)
        self.wanted, status, said = self.run({})
        if status or said or self.wanted.count(b"HTTP/1.1 ") != len(REQUESTS) + 1:
            sys.exit(f"allocations.py: while none fails: status {status} {said!r} {self.wanted!r}")
        # The boundary is at random, so its digits count for nothing.
        boundary = re.search(rb"boundary=([0-9a-f]{32})", self.wanted)[1]
        self.spans = [found.span() for found in re.finditer(boundary, self.wanted)]

    def run(self, variables):
        done = subprocess.run(self.words, input=b"".join(REQUESTS), env={**os.environ, **variables}, capture_output=True)
        return done.stdout, done.returncode, done.stderr

    def hide(self, answer):
        for start, end in self.spans:
            answer = answer[:start] + b"0" * len(answer[start:end]) + answer[end:]
        return answer

    def fail(self, number):
        """Whether so many allocations are made, and what is wrong if this one fails."""
        mark = self.room / str(number)
        variables = {"LD_PRELOAD": self.room / "refuse.so", "REFUSE_REQUEST": str(number), "REFUSE_MARK": mark}
        answer, status, said = self.run(variables)
        if not mark.exists():
            return False, None
        mark.unlink()
        wanted, found = self.hide(self.wanted), self.hide(answer)
        if found == wanted:
            is_right = status in (0, 1)
        else:
            is_right = wanted.startswith(found) and (status == 1 or (status == 2 and said and not answer))
        if is_right:
            return True, None
        same = len(os.path.commonprefix([wanted, found]))
        what = f"status {status}, {said[:200]!r}, {len(found)} bytes, of which {same} are right"
        return True, f"{what}: {found[same:same + 80]!r}"


def main():
    program, folder = sys.argv[1:]
    with tempfile.TemporaryDirectory() as room, ThreadPoolExecutor(RUNS_AT_ONCE) as pool:
        runs = Runs(program, folder, room)
        count, wanting, is_more = 0, 0, True
        while is_more:
            numbers = range(count + 1, count + 101)
            for number, (is_made, what) in zip(numbers, pool.map(runs.fail, numbers)):
                is_more = is_made
                if not is_made:
                    break
                count = number
                if what:
                    wanting += 1
                    print(f"allocation {number}: {what}")
        print(f"{len(REQUESTS)} requests, {len(runs.wanted)} bytes of answers: {count} allocations failed, "
              f"{wanting} found wanting")
    sys.exit(1 if wanting or not count else 0)


main()
