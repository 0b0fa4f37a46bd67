"""The origin before which the caches stand. It answers a request by the step that the request's Req-Num names, and
records what it was asked."""
import json
import re
import socketserver
import threading
import time
from collections import defaultdict
from collections.abc import Callable
from dataclasses import dataclass, field
from datetime import datetime, timedelta, timezone
from http.server import BaseHTTPRequestHandler
from typing import Any

from caching.cases import Step
from common.fields import Fields


@dataclass
class Asked:
    """A request that came to the origin, and what was answered: a status, or `None` if the connection was closed."""

    number: int
    method: str
    fields: Fields
    is_conditional: bool
    answered: int | None = None


@dataclass
class Record:
    """What the origin is to answer, by the key in the target, and what it was asked."""

    steps: dict[str, list[Step]] = field(default_factory=dict)
    asked: defaultdict[str, list[Asked]] = field(default_factory=lambda: defaultdict(list))
    # What a page of the origin reported, by the page's name.
    reports: dict[str, Any] = field(default_factory=dict)
    page: bytes = b""


RECORD = Record()


def formats_of(time_: datetime) -> dict[str, str]:
    """A time in the formats of HTTP-date (RFC 9110, section 5.6.7), and in some that are none."""
    imf = time_.strftime("%a, %d %b %Y %H:%M:%S GMT")
    return {
        "": imf, "850": time_.strftime("%A, %d-%b-%y %H:%M:%S GMT"), "asc": time_.strftime("%a %b %e %H:%M:%S %Y"),
        "lower": imf.lower(), "nozone": imf[:-4], "utc": imf[:-3] + "UTC", "offset": imf[:-3] + "+0000",
        "noday": imf[5:],
        "spaces": imf.replace(" ", "  "),
        "onedigit": time_.strftime("%a, %d %b %Y ") + f"{time_.hour}:{time_.minute}:{time_.second:02} GMT",
        "year2": time_.strftime("%a, %d %b %y %H:%M:%S GMT"), "dashes": time_.strftime("%a, %d-%b-%Y %H:%M:%S GMT"),
        "wrongday": (time_ + timedelta(days=1)).strftime("%a") + imf[3:],
    }


def filled(value: str, url: str) -> str:
    """A value with its dates and the target."""

    def put(found: re.Match[str]) -> str:
        if found[1] == "url":
            return url
        delta, _, form = found[1][3:].partition(":")
        return formats_of(datetime.now(timezone.utc) + timedelta(seconds=int(delta or 0)))[form]

    return re.sub(r"\{(url|now(?:[+-]\d+)?(?::\w+)?)\}", put, value)


# What comes late. It says of no request that it answers it.
UNASKED = (b"HTTP/1.1 200 OK\r\nCache-Control: max-age=3600\r\nReq-Num-Answered: 0\r\nContent-Length: 16\r\n\r\n"
           b"unasked answer 0")


def body_of(key: str, number: int) -> bytes:
    return f"{key} answer {number} ".encode() + b"." * 40


class Origin(BaseHTTPRequestHandler):
    protocol_version = "HTTP/1.1"
    timeout = 30

    def log_message(self, *_: Any) -> None:
        pass

    def handle_expect_100(self) -> bool:
        return True

    def __getattr__(self, name: str) -> Callable[[], None]:
        if name.startswith("do_"):
            return self.answer
        raise AttributeError(name)

    def answer(self) -> None:
        length = int(self.headers.get("Content-Length") or 0)
        sent = self.rfile.read(length) if length else b""
        path = self.path.partition("?")[0]
        _, place, key = path.split("/")
        if place == "page":
            self.send(200, ["Content-Type: text/html", "Cache-Control: no-store"], RECORD.page)
        elif place == "report":
            RECORD.reports[key] = json.loads(sent)
            self.send(200, ["Cache-Control: no-store"], b"")
        else:
            self.answer_step(path, key)

    def answer_step(self, path: str, key: str) -> None:
        steps = RECORD.steps[key]
        number = int(self.headers.get("Req-Num") or 0)
        step = steps[min(max(number, 1), len(steps)) - 1]
        fields = [(name.lower(), value) for name, value in self.headers.items()]
        names = {name for name, _ in fields}
        asked = Asked(number, self.command, fields, bool(names & {"if-none-match", "if-modified-since"}))
        RECORD.asked[key].append(asked)
        time.sleep(step.delay)
        if step.close:
            self.close_connection = True
            return
        status, lines, body = self.representation(step, key, number, asked.is_conditional)
        asked.answered = status
        lines += [f"{name}: {filled(value, path)}" for name, value in step.fields]
        lines.append(f"Req-Num-Answered: {number}")
        given = {name.lower() for name, _ in step.fields}
        if "content-type" not in given and status != 304:
            lines.append("Content-Type: text/plain")
        self.send(status, lines, body, 50 if step.truncate else 0)
        if step.late:
            time.sleep(0.3)
            self.wfile.write(UNASKED)

    def representation(self, step: Step, key: str, number: int, is_conditional: bool) -> tuple[int, list[str], bytes]:
        body = body_of(key, 1 if step.same else number)
        if step.same and is_conditional:
            return 304, [], body
        found = re.fullmatch(r"bytes=(\d+)-(\d+)", self.headers.get("Range") or "")
        if step.partial and found:
            first, last = map(int, found.groups())
            return step.status, [f"Content-Range: bytes {first}-{last}/{len(body)}"], body[first : last + 1]
        return 200 if step.partial or step.status == 206 else step.status, [], body

    def send(self, status: int, lines: list[str], body: bytes, missing: int = 0) -> None:
        if status not in (204, 304):
            lines = [*lines, f"Content-Length: {len(body) + missing}"]
        head = f"HTTP/1.1 {status} X\r\n" + "".join(it + "\r\n" for it in lines) + "\r\n"
        try:
            self.wfile.write(head.encode("latin-1") + (b"" if self.command == "HEAD" or status in (204, 304) else body))
        except OSError:
            self.close_connection = True
        if missing:
            self.close_connection = True


class Server(socketserver.ThreadingMixIn, socketserver.TCPServer):
    allow_reuse_address = True
    daemon_threads = True
    request_queue_size = 512

    def handle_error(self, request: Any, client_address: Any) -> None:
        """A cache may break off."""


def start(port: int) -> Server:
    server = Server(("127.0.0.1", port), Origin)
    threading.Thread(target=server.serve_forever, daemon=True).start()
    return server
