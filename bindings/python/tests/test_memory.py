"""How much memory a cache takes, as the system sees it."""

import os
import unittest
from typing import Any, Dict, Iterable, List, Tuple

from typed_headers import Cache, wsgi

MIB = 1024 * 1024
Fields = List[Tuple[str, str]]
#: 60 kB of fields.
LARGE = {f"X-{number}": "v" * 900 for number in range(64)}


def resident() -> int:
    with open("/proc/self/statm", encoding="ascii") as file:
        return int(file.read().split()[1]) * os.sysconf("SC_PAGE_SIZE")


@unittest.skipUnless(os.path.exists("/proc/self/statm"), "the system doesn't tell how much memory a process has")
class Memory(unittest.TestCase):
    def taken(self, cache: Cache, rounds: int, fields: Fields, content: bytes, again: Fields, **asked: str) -> int:
        """How many bytes more the process has once so many pages were asked for. The second time, 100 seconds later, the
        application answers 304, with other fields."""
        now = [1000]

        def application(environ: Any, start_response: Any) -> Iterable[bytes]:
            if environ.get("HTTP_IF_NONE_MATCH"):
                start_response("304 X", again)
                return []
            start_response("404 X", fields)
            return [content]

        cached: Any = wsgi.Cached(application, cache, clock=lambda: now[0])
        request: Dict[str, str] = {f"HTTP_{name.upper().replace('-', '_')}": value for name, value in asked.items()}
        environ = {"REQUEST_METHOD": "GET", "HTTP_HOST": "a.example", "wsgi.url_scheme": "http", **request}
        before = 0
        for number in range(rounds):
            if number == 10:
                before = resident()
            for now[0] in (1000, 1100) if again else (1000,):
                b"".join(cached({**environ, "PATH_INFO": f"/{number}"}, lambda status, given: None))
        return resident() - before

    def test_fields_of_few_responses(self) -> None:
        fields = [*LARGE.items(), ("Cache-Control", "max-age=60")]
        with Cache(shared=True, responses=16) as cache:
            self.assertLess(self.taken(cache, 1500, fields, b"", [], **LARGE), 16 * MIB)

    def test_fields_of_many_responses(self) -> None:
        fields = [*LARGE.items(), ("Cache-Control", "max-age=60")]
        with Cache(shared=True, content=MIB) as cache:
            self.assertLess(self.taken(cache, 1500, fields, b"", [], **LARGE), 16 * MIB)

    def test_content(self) -> None:
        with Cache(shared=True, content=4 * MIB) as cache:
            fields = [("Cache-Control", "max-age=60")]
            self.assertLess(self.taken(cache, 300, fields, bytes(MIB), []), 16 * MIB)

    def test_what_a_304_lets_answer_once(self) -> None:
        """A response that a cache may keep no longer is gone with its pass (RFC 9111, section 5.2.2.5)."""
        with Cache(shared=True, content=512 * MIB) as cache:
            fields, again = [("Cache-Control", "max-age=60"), ("ETag", '"1"')], [("Cache-Control", "no-store"), ("ETag", '"1"')]
            self.assertLess(self.taken(cache, 300, fields, bytes(MIB), again), 16 * MIB)


if __name__ == "__main__":
    unittest.main()
