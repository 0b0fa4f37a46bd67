"""Asks an application in this process, as a server would."""
import asyncio
import io
import re
from dataclasses import dataclass
from typing import Any

Fields = list[tuple[str, str]]


@dataclass
class Response:
    status: int
    fields: Fields
    body: bytes

    def get(self, name: str) -> str | None:
        values = [value for other, value in self.fields if other.lower() == name]
        return ", ".join(values) if values else None

    def byte_fields(self) -> list[tuple[bytes, bytes]]:
        return [(name.lower().encode("latin-1"), value.encode("latin-1")) for name, value in self.fields]

    def parts(self) -> list[tuple[int, int, bytes]] | None:
        """The parts of a 206, or `None` if it isn't made as RFC 9110, sections 14.4 and 14.6, says."""
        boundary = re.match(r'multipart/byteranges; *boundary="?([^";]+)', self.get("content-type") or "")
        if not boundary:
            pieces = [(f"content-range: {self.get('content-range') or ''}", self.body)]
        else:
            lines = (b"\r\n" + self.body).split(b"\r\n--" + boundary[1].encode())
            if lines[0] or lines[-1].strip(b"\r\n") != b"--":
                return None
            parted = [line.partition(b"\r\n\r\n") for line in lines[1:-1]]
            pieces = [(head.decode("latin-1"), body) for head, _, body in parted]
        found = []
        for head, body in pieces:
            match = re.search(r"content-range: *bytes (\d+)-(\d+)/\d+", head, re.IGNORECASE)
            if not match:
                return None
            found.append((int(match[1]), int(match[2]), body))
        return found


def by_wsgi(application: Any, method: str, path: str, fields: Fields) -> Response:
    environ: dict[str, Any] = {
        "REQUEST_METHOD": method, "PATH_INFO": path, "SCRIPT_NAME": "", "QUERY_STRING": "", "SERVER_NAME": "a",
        "SERVER_PORT": "80", "SERVER_PROTOCOL": "HTTP/1.1", "HTTP_HOST": "a", "wsgi.input": io.BytesIO(),
        "wsgi.errors": io.StringIO(), "wsgi.url_scheme": "http", "wsgi.version": (1, 0), "wsgi.multithread": False,
        "wsgi.multiprocess": False, "wsgi.run_once": False, "REMOTE_ADDR": "127.0.0.1", "CONTENT_LENGTH": "0",
    }
    for name, value in fields:
        # (servers join the lines of a field)
        key = f"HTTP_{name.upper().replace('-', '_')}"
        environ[key] = f"{environ[key]},{value.strip(' ')}" if key in environ else value.strip(" \t")
    seen: list[Any] = []

    def start_response(line: str, given: Fields, exc_info: Any = None) -> Any:
        seen[:] = [int(line[:3]), list(given)]
        return seen.append

    content = application(environ, start_response)
    try:
        body = b"".join(content)
    finally:
        if hasattr(content, "close"):
            content.close()
    return Response(seen[0], seen[1], b"" if method == "HEAD" else body)


def by_asgi(application: Any, method: str, path: str, fields: Fields) -> Response:
    headers = [(name.lower().encode(), value.strip(" \t").encode("latin-1")) for name, value in fields]
    scope = {
        "type": "http", "asgi": {"version": "3.0"}, "http_version": "1.1", "method": method, "path": path,
        "raw_path": path.encode(), "query_string": b"", "root_path": "", "scheme": "http", "server": ("a", 80),
        "client": ("127.0.0.1", 1), "headers": [(b"host", b"a"), *headers], "extensions": {},
    }
    messages: list[Any] = []
    received = [{"type": "http.request", "body": b"", "more_body": False}]

    async def receive() -> Any:
        return received.pop() if received else {"type": "http.disconnect"}

    async def send(message: Any) -> None:
        messages.append(message)

    loop().run_until_complete(application(scope, receive, send))
    head, *bodies = messages
    given = [(name.decode("latin-1"), value.decode("latin-1")) for name, value in head["headers"]]
    body = b"".join(it.get("body", b"") for it in bodies)
    return Response(head["status"], given, b"" if method == "HEAD" else body)


LOOPS: list[asyncio.AbstractEventLoop] = []


def loop() -> asyncio.AbstractEventLoop:
    if not LOOPS:
        LOOPS.append(asyncio.new_event_loop())
    return LOOPS[0]


def ask(is_async: bool, application: Any, method: str, path: str, fields: Fields) -> Response:
    return (by_asgi if is_async else by_wsgi)(application, method, path, fields)
