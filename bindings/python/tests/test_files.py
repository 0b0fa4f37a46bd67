"""Folders that are served: which files, which copies, and what no request reaches."""

import asyncio
import gzip
import os
import tempfile
import time
import unittest
from pathlib import Path
from typing import Any, Callable, Dict, List, Optional, Tuple, Union
from unittest import mock
from urllib.parse import quote, unquote_to_bytes

from typed_headers import HeaderError, asgi, wsgi

Fields = Dict[str, str]
Application = Union[wsgi.Files, asgi.Files]
CONTENT = bytes(place % 251 for place in range(600_000))
PAGE = b"<p>a page</p>\n"


class Answer:
    def __init__(self, status: int, fields: List[Tuple[str, str]], content: bytes) -> None:
        self.status, self.fields, self.content = status, dict(fields), content
        assert len(fields) == len(self.fields), fields

    def __getitem__(self, name: str) -> Optional[str]:
        return self.fields.get(name)


def by_wsgi(
    application: Any, path: str, fields: Fields, method: str = "GET", mount: str = "", query: str = ""
) -> Answer:
    decoded = unquote_to_bytes(path).decode("latin-1")
    environ = {
        "REQUEST_METHOD": method,
        "SCRIPT_NAME": mount,
        "PATH_INFO": decoded,
        "QUERY_STRING": query,
        "SERVER_PROTOCOL": "HTTP/1.1",
        "HTTP_HOST": "a.example",
    }
    environ.update({f"HTTP_{name.upper().replace('-', '_')}": value for name, value in fields.items()})
    seen: List[Any] = []
    content = application(environ, lambda status, given: seen.extend((int(status[:3]), given)))
    try:
        return Answer(seen[0], seen[1], b"".join(content))
    finally:
        getattr(content, "close", lambda: None)()


def by_asgi(
    application: Any, path: str, fields: Fields, method: str = "GET", mount: str = "", query: str = ""
) -> Answer:
    given = {"host": "a.example", **{name.lower(): value for name, value in fields.items()}}
    scope = {
        "type": "http",
        "method": method,
        "root_path": mount,
        "query_string": query.encode(),
        "path": unquote_to_bytes(mount + path).decode("utf-8", "surrogateescape"),
        "raw_path": (mount + path).encode(),
        "headers": [(name.encode(), value.encode("latin-1")) for name, value in given.items()],
    }
    return by_scope(application, scope)


def by_scope(application: Any, scope: Any) -> Answer:
    messages: List[Any] = []

    async def send(message: Any) -> None:
        messages.append(message)

    asyncio.run(application(scope, None, send))
    head, *bodies = messages
    assert [it.get("more_body", False) for it in bodies] == [True] * (len(bodies) - 1) + [False]
    told = [(name.decode(), value.decode("latin-1")) for name, value in head["headers"]]
    return Answer(head["status"], told, b"".join(it["body"] for it in bodies))


def descriptors() -> int:
    return len(os.listdir("/proc/self/fd"))


class Files(unittest.TestCase):
    def setUp(self) -> None:
        room = tempfile.TemporaryDirectory()
        self.addCleanup(room.cleanup)
        self.outside = Path(room.name, "secret.txt")
        self.outside.write_text("secret")
        self.folder = Path(room.name, "folder")
        for name, content in {
            "index.html": PAGE,
            "a.css": b"a{}",
            "a.css.br": b"br of a",
            "a.css.gz": gzip.compress(b"a{}"),
            "big.bin": CONTENT,
            "sub/index.html": PAGE,
            "sub/é b.txt": b"named",
            ".env": b"SECRET",
            "sub/.git/config": b"x",
            ".well-known/x": b"known",
        }.items():
            path = self.folder / name
            path.parent.mkdir(parents=True, exist_ok=True)
            path.write_bytes(content)
        # A file that changed within two seconds has no entity tag.
        self.clock(time.time() + 10)

    def clock(self, now: float) -> None:
        patch = mock.patch("typed_headers._files.time.time", lambda: now)
        patch.start()
        self.addCleanup(patch.stop)

    def each(self, **options: Any) -> List[Tuple[Callable[..., Answer], Application]]:
        return [(by_wsgi, wsgi.Files(self.folder, **options)), (by_asgi, asgi.Files(str(self.folder), **options))]

    def test_a_file(self) -> None:
        for ask, files in self.each(cache_control="max-age=60"):
            whole = ask(files, "/big.bin", {})
            self.assertEqual((whole.status, whole.content), (200, CONTENT))
            self.assertEqual(
                (whole["content-length"], whole["accept-ranges"], whole["vary"]), ("600000", "bytes", None)
            )
            self.assertEqual((whole["cache-control"], whole["x-content-type-options"]), ("max-age=60", "nosniff"))
            self.assertEqual((whole["date"], whole["connection"]), (None, None))
            head = ask(files, "/big.bin", {}, "HEAD")
            self.assertEqual((head.status, head.fields, head.content), (200, whole.fields, b""))
            tag = whole["etag"] or ""
            same = ask(files, "/big.bin", {"If-None-Match": f'"x", {tag}'})
            self.assertEqual(
                (same.status, same["etag"], same["cache-control"], same.content), (304, tag, "max-age=60", b"")
            )
            since = ask(files, "/big.bin", {"If-Modified-Since": whole["last-modified"] or ""})
            self.assertEqual(since.status, 304)
            self.assertEqual(ask(files, "/big.bin", {"If-Match": '"x"'}).status, 412)
            part = ask(files, "/big.bin", {"Range": "bytes=300000-", "If-Range": tag})
            self.assertEqual((part.status, part.content), (206, CONTENT[300000:]))
            self.assertEqual(part["content-range"], "bytes 300000-599999/600000")
            self.assertEqual(ask(files, "/big.bin", {"Range": "bytes=5-", "If-Range": '"x"'}).status, 200)
            self.assertEqual(ask(files, "/big.bin", {"Range": "bytes=600000-"}).status, 416)
            missing = ask(files, "/none", {})
            self.assertEqual((missing.status, missing["cache-control"], missing["etag"]), (404, None, None))

    def test_several_parts(self) -> None:
        for ask, files in self.each():
            answer = ask(files, "/big.bin", {"Range": "bytes=0-1,300000-300001,-1"})
            boundary = (answer["content-type"] or "").partition("boundary=")[2].strip('"')
            self.assertEqual((answer.status, len(answer.content)), (206, int(answer["content-length"] or "0")))
            parts = [it.partition(b"\r\n\r\n")[2][:-2] for it in answer.content.split(f"--{boundary}".encode())[1:-1]]
            self.assertEqual(parts, [CONTENT[:2], CONTENT[300000:300002], CONTENT[-1:]])

    def test_copies(self) -> None:
        cases: Tuple[Tuple[Fields, Optional[str]], ...] = (
            ({}, None),
            ({"Accept-Encoding": "gzip"}, "gzip"),
            ({"Accept-Encoding": "br, gzip"}, "br"),
            ({"Accept-Encoding": "br;q=0.1, gzip"}, "gzip"),
            ({"Accept-Encoding": "gzip;q=0, br;q=0"}, None),
            ({"Accept-Encoding": "zstd"}, None),
        )
        for ask, files in self.each(precompressed=True):
            tags = set()
            for fields, coding in cases:
                answer = ask(files, "/a.css", fields)
                wanted = {None: b"a{}", "br": b"br of a", "gzip": (self.folder / "a.css.gz").read_bytes()}[coding]
                self.assertEqual(
                    (answer.status, answer["content-encoding"], answer.content), (200, coding, wanted), fields
                )
                self.assertEqual(
                    (answer["content-type"], answer["vary"]), ("text/css; charset=utf-8", "accept-encoding")
                )
                tags.add(answer["etag"])
            self.assertEqual(len(tags), 3)
        for ask, files in self.each():
            answer = ask(files, "/a.css", {"Accept-Encoding": "gzip"})
            self.assertEqual((answer["content-encoding"], answer["vary"], answer.content), (None, None, b"a{}"))

    def test_folders(self) -> None:
        for ask, files in self.each():
            for path in ("/", "/sub/"):
                answer = ask(files, path, {})
                self.assertEqual((answer.status, answer.content), (200, PAGE))
            self.assertEqual(ask(files, "/sub/" + quote("é b.txt"), {}).content, b"named")
            moved = ask(files, "/sub", {}, query="a=1&b=%20")
            self.assertEqual((moved.status, moved["location"]), (301, "/sub/?a=1&b=%20"))
            self.assertEqual(ask(files, "/.well-known/x", {}).content, b"known")

    def test_a_mount(self) -> None:
        for ask, files in self.each(precompressed=True):
            for mount in ("/static", "/x/y", "/sub"):
                self.assertEqual(ask(files, "/a.css", {}, mount=mount).content, b"a{}")
                self.assertEqual(ask(files, "/", {}, mount=mount).content, PAGE)
                self.assertEqual(ask(files, "/sub", {}, mount=mount)["location"], f"{mount}/sub/")
                self.assertEqual(ask(files, "", {}, mount=mount)["location"], f"{mount}/")
                self.assertEqual(ask(files, "/none", {}, mount=mount).status, 404)
        files = asgi.Files(self.folder)
        shared: Dict[str, Any] = {"type": "http", "method": "GET", "headers": [(b"host", b"a")]}
        scopes: List[Dict[str, Any]] = [
            {"path": "/a.css", "root_path": "/static", "raw_path": b"/static/a.css"},
            {"path": "/a.css", "root_path": "/static"},
            {"path": "/static/a.css", "root_path": "/static", "raw_path": b"/static/a.css"},
            {"path": "/static/a.css", "root_path": "/static"},
            {"path": "/a.css", "raw_path": b"/a.css"},
        ]
        for scope in scopes:
            self.assertEqual(by_scope(files, {**shared, **scope}).content, b"a{}", scope)

    def test_what_is_not_served(self) -> None:
        (self.folder / "link.txt").symlink_to(self.outside)
        (self.folder / "away").symlink_to(self.outside.parent)
        os.mkfifo(self.folder / "pipe")
        for ask, files in self.each(precompressed=True):
            for path, status in (
                ("/.env", 404),
                ("/sub/.git/config", 404),
                ("/../secret.txt", 404),
                ("/%2e%2e/secret.txt", 404),
                ("/sub/../a.css", 404),
                ("//a.css", 404),
                ("/a.css%00", 404),
                ("/a%5C..%5Cb", 404),
                ("/%FF", 404),
                ("/link.txt", 403),
                ("/away/secret.txt", 404),
                ("/pipe", 403),
                ("/" + "a/" * 3000, 404),
                ("/" + "a" * 300, 404),
                ("/a.css/", 404),
                ("/sub/none/x", 404),
            ):
                answer = ask(files, path, {})
                self.assertEqual(answer.status, status, path[:40])
                self.assertNotIn(b"secret", answer.content)
            for method, status in (
                ("OPTIONS", 204),
                ("PUT", 501),
                ("POST", 501),
                ("get", 501),
                ("G T", 400),
                ("G\r\nA: b", 400),
            ):
                self.assertEqual(ask(files, "/a.css", {}, method).status, status, method)
            self.assertEqual(ask(files, "/a.css", {"Range": "bytes=0-1\r\nHost: b"}).status, 400)
            self.assertEqual(ask(files, "/a.css", {}, query="a b\r\nX: y").status, 200)
        for ask, files in self.each(hosts=["b.example"]):
            self.assertEqual(ask(files, "/a.css", {}).status, 421)
        self.assertEqual(wsgi_status(wsgi.Files(self.folder), SERVER_PROTOCOL="HTTP/1.0"), "200 OK")
        self.assertEqual(wsgi_status(wsgi.Files(self.folder), SERVER_PROTOCOL="HTTP/1.1"), "400 Bad Request")

    def test_settings(self) -> None:
        wrong: List[Dict[str, Any]] = [{"cache_control": "a\n"}, {"key": b"short"}, {"hosts": ["a\n"]}]
        for options in wrong:
            for kind in (wsgi.Files, asgi.Files):
                with self.assertRaises(HeaderError):
                    kind(self.folder, **options)
        with self.assertRaises(FileNotFoundError):
            wsgi.Files(self.folder / "none")

    def test_tags(self) -> None:
        """They are one for all that have a key, and another for another key; none for what changed just now."""

        def tag(**options: Any) -> Optional[str]:
            return by_wsgi(wsgi.Files(self.folder, **options), "/a.css", {})["etag"]

        one, other = b"0123456789abcdef", b"0123456789abcdeg"
        self.assertEqual((tag(key=one), tag()), (tag(key=one), tag()))
        self.assertEqual(len({tag(key=one), tag(key=other), tag()}), 3)
        before = tag()
        (self.folder / "a.css").write_bytes(b"b{}")
        self.assertNotEqual(tag(), before)
        self.clock((self.folder / "a.css").stat().st_ctime)
        self.assertIsNone(tag())

    def test_a_file_that_changes(self) -> None:
        """The rest of another content is never sent behind the begin of the first."""
        files: Any = wsgi.Files(self.folder)
        for change in (
            lambda: os.truncate(self.folder / "big.bin", 10),
            lambda: (self.folder / "big.bin").write_bytes(CONTENT[::-1]),
        ):
            (self.folder / "big.bin").write_bytes(CONTENT)
            os.utime(self.folder / "big.bin", (1, 1))
            pieces = files({"REQUEST_METHOD": "GET", "PATH_INFO": "/big.bin", "HTTP_HOST": "a"}, lambda *_: None)
            iterator = iter(pieces)
            self.assertTrue(CONTENT.startswith(next(iterator)))
            change()
            with self.assertRaises(OSError):
                next(iterator)
            pieces.close()

    @unittest.skipUnless(os.path.isdir("/proc/self/fd"), "the system doesn't list open files")
    def test_files_are_closed(self) -> None:
        for ask, files in self.each(precompressed=True):
            ask(files, "/a.css", {})
            before = descriptors()
            for path in ("/a.css", "/big.bin", "/sub", "/none", "/sub/none", "/", "/.env", "/a.css/x"):
                for fields in ({}, {"Accept-Encoding": "gzip"}, {"Range": "bytes=0-1"}, {"If-Match": '"x"'}):
                    ask(files, path, fields)
            self.assertEqual(descriptors(), before)

    def test_a_client_that_goes_away(self) -> None:
        async def send(message: Any) -> None:
            if message["type"] == "http.response.body":
                raise ConnectionResetError

        scope = {"type": "http", "method": "GET", "path": "/big.bin", "headers": [(b"host", b"a")]}
        files: Any = asgi.Files(self.folder)
        before = descriptors()
        with self.assertRaises(ConnectionResetError):
            asyncio.run(files(scope, None, send))
        self.assertEqual(descriptors(), before)
        with self.assertRaises(NotImplementedError):
            asyncio.run(files({"type": "websocket"}, None, send))


def wsgi_status(files: Any, **environ: str) -> str:
    seen: List[str] = []
    content = files(
        {"REQUEST_METHOD": "GET", "PATH_INFO": "/a.css", **environ}, lambda status, fields: seen.append(status)
    )
    b"".join(content)
    getattr(content, "close", lambda: None)()
    return seen[0]


if __name__ == "__main__":
    unittest.main()
