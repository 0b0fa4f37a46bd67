"""Exchanges between real clients and origins, each through a gateway and without it."""
import contextlib
import hashlib
import http.client
import json
import operator
import os
import re
import socket
import subprocess
import time
from collections.abc import Callable, Iterator
from dataclasses import dataclass
from pathlib import Path

import gateways
from common import processes
from common.browsers import Browser
from common.part import Context, Part
from common.processes import PYTHON, Missing

HERE = Path(__file__).parent / "origins"
FIRST_PORT = 18540
SIZES = (0, 1, 1000, 100_000, 10_000_000)
# What two ends of a connection say about it, and what the gateway itself adds.
HOP = {"connection", "keep-alive", "transfer-encoding", "via", "date", "te", "upgrade", "proxy-connection", "host"}
UPLOAD = b"0123456789" * 100_000


@dataclass
class Origin:
    name: str
    words: list[str]
    # It answers what it received, and has the paths of origins/origin.py that Node's server can have.
    echoes: bool
    # It has all of them.
    is_scripted: bool = False
    config: str = ""


ORIGINS = [
    Origin("Python", [PYTHON, "-B", str(HERE / "origin.py"), "@PORT@", "@FOLDER@"], True, True),
    Origin("Node", ["node", str(HERE / "origin.js"), "@PORT@", "@FOLDER@"], True),
    Origin("nginx", ["nginx", "-c", "@WORK@/nginx.conf", "-e", "@WORK@/nginx-origin.error"], False,
           config="nginx.conf"),
    Origin("Apache", ["apache2", "-f", "@WORK@/apache.conf", "-DFOREGROUND"], False, config="apache.conf"),
]

Fields = list[tuple[str, str]]


def kept(fields: Fields) -> list[str]:
    """The end-to-end fields of a message, in the order of their names."""
    found = [(name.lower(), value.strip()) for name, value in fields]
    named = {it.strip().lower() for name, value in found if name == "connection" for it in value.split(",")}
    found = [(name, value) for name, value in found if name not in HOP | named]
    return [f"{name}: {value}" for name, value in sorted(found, key=lambda it: it[0])]


def told(content: bytes) -> object:
    """A content to compare: what an origin says that it received, or else its sum."""
    with contextlib.suppress(ValueError, KeyError, TypeError):
        echo = json.loads(content)
        echo["fields"] = [it for it in kept([tuple(it) for it in echo["fields"]])
                          if not re.match("content-length:|expect:|x-forwarded|forwarded", it)]
        return echo
    return hashlib.sha256(content).hexdigest()


# ---- curl

# For each exchange its name, curl's words, the path, and whether it wants an origin that echoes or a scripted one.
FILES = [(f"file-{size}", [], f"/f/{size}", "") for size in SIZES]
CURL = [
    *FILES,
    ("head", ["-I"], "/f/1000", ""), ("head-missing", ["-I"], "/missing", ""), ("missing", [], "/missing", ""),
    ("front", [], "/", ""), ("none", [], "/status/204", ""), ("teapot", [], "/status/418", "echo"),
    ("failed", [], "/status/500", ""), ("moved", ["-H", "Host: a"], "/status/301", ""),
    ("followed", ["-L"], "/status/301", ""),
    ("http10", ["-0"], "/f/1000", ""), ("http10-no-host", ["-0", "-H", "Host:"], "/f/1000", ""),
    ("close", ["-H", "Connection: close"], "/f/1000", ""), ("coded", ["--compressed"], "/f/100000", ""),
    ("query", [], "/f/1?a=b&c=%20%2F;d", ""), ("odd-path", ["--path-as-is"], "/./f/../f/1", ""),
    ("range", ["-r", "0-9"], "/f/1000", ""), ("range-suffix", ["-r", "-5"], "/f/1000", ""),
    ("range-outside", ["-r", "5000-"], "/f/1000", ""),
    ("many-fields", [it for n in range(60) for it in ("-H", f"X-Field-{n}: {n}")], "/f/1", ""),
    ("long-field", ["-H", "X-Long: " + "x" * 6000], "/f/1", ""), ("empty-field", ["-H", "X-Empty;"], "/f/1", ""),
    ("options", ["-X", "OPTIONS"], "/f/1", ""), ("delete", ["-X", "DELETE"], "/f/1", ""),
    ("put-small", ["-X", "PUT", "-d", "hello"], "/f/1", ""), ("post-small", ["-d", "hello"], "/f/1", ""),
    ("authorized", ["-u", "a:b"], "/f/1", ""), ("cookie", ["-b", "a=b; c=d"], "/f/1", ""),
    ("trailers-accepted", ["-H", "TE: trailers", "-H", "Connection: TE"], "/f/1", ""),
    ("own-hop", ["-H", "Connection: X-Hop", "-H", "X-Hop: 1"], "/echo", "echo"),
    ("echo", [], "/echo", "echo"), ("echo-fields", ["-H", "X-One: 1", "-H", "X-Two: 2"], "/echo", "echo"),
    ("post", ["-d", "a=b"], "/echo", "echo"), ("post-empty", ["-X", "POST", "-d", ""], "/echo", "echo"),
    ("post-large", ["--data-binary", "@upload"], "/echo", "echo"),
    ("post-chunked", ["-H", "Transfer-Encoding: chunked", "--data-binary", "@upload"], "/echo", "echo"),
    ("put-chunked", ["-T", "-"], "/echo", "echo"), ("put-file", ["-T", "upload"], "/echo", "echo"),
    ("expected", ["-H", "Expect: 100-continue", "--data-binary", "@upload"], "/echo", "echo"),
    ("patch", ["-X", "PATCH", "-d", "{}"], "/echo", "echo"), ("form", ["-F", "a=b"], "/echo", "form"),
    ("unknown-method", ["-X", "GOT"], "/echo", "echo"),
    ("get-with-content", ["-X", "GET", "-d", "hello"], "/echo", "echo"),
    ("delete-with-content", ["-X", "DELETE", "-d", "hello"], "/echo", "echo"),
    ("chunked", [], "/chunked", "echo"), ("until-close", [], "/close", "echo"), ("trailers", [], "/trailers", "echo"),
    ("lines", [], "/lines", "echo"), ("empty", [], "/empty", "echo"), ("slow", [], "/slow", "echo"),
    ("hints", [], "/hints", "echo"), ("head-chunked", ["-I"], "/chunked", "echo"),
    ("http10-chunked", ["-0"], "/chunked", "echo"),
    ("chunk-extensions", [], "/chunk-extensions", "script"), ("http10-server", [], "/http10", "script"),
    ("http10-server-length", [], "/http10-length", "script"), ("connection", [], "/connection", "script"),
    ("undated", [], "/undated", "script"), ("interim", [], "/interim", "script"),
    ("not-modified", [], "/not-modified", "script"), ("early", ["--data-binary", "@upload"], "/early", "early"),
]


def curl(port: int, words: list[str], path: str, folder: Path) -> object:
    """The status, the end-to-end fields, the content, and how often curl connected."""
    command = ["curl", "-s", "--max-time", "20", "-o", "content", "-D", "head", "-w", "%{http_code} %{exitcode}",
               *words, f"http://127.0.0.1:{port}{path}"]
    for name in ("content", "head"):
        (folder / name).unlink(missing_ok=True)
    stdin = open(folder / "upload", "rb") if "-" in words else subprocess.DEVNULL
    done = subprocess.run(command, cwd=folder, stdin=stdin, capture_output=True, check=False)
    head = (folder / "head").read_bytes().decode("latin-1") if (folder / "head").exists() else ""
    last = [it for it in head.split("\r\n\r\n") if it.startswith("HTTP/")][-1:]
    fields = [tuple(it.split(":", 1)) for it in (last[0].split("\r\n")[1:] if last else []) if ":" in it]
    content = (folder / "content").read_bytes() if (folder / "content").exists() else b""
    fields = [(name, value) for name, value in fields if name.lower() != "content-length" or "-I" in words]
    return [done.stdout.decode(), kept(fields), told(content) if "-I" not in words else ""]


# ---- wget

WGET = [
    *[(f"file-{size}", [], f"/f/{size}") for size in SIZES[1:4]], ("missing", [], "/missing"),
    ("resumed", ["-c"], "/f/100000"), ("spider", ["--spider"], "/f/1000"), ("field", ["--header=X-One: 1"], "/f/1"),
    ("post", ["--post-data=a=b"], "/f/1"), ("put", ["--method=PUT", "--body-data=hello"], "/f/1"),
    ("no-keep-alive", ["--no-http-keep-alive"], "/f/1000"),
]


def wget(port: int, words: list[str], path: str, folder: Path) -> object:
    target = folder / "wget"
    if "-c" in words:
        target.write_bytes((folder.parent / "www" / path[1:]).read_bytes()[:70000])
    else:
        target.unlink(missing_ok=True)
    done = subprocess.run(["wget", "-q", "-t", "1", "-T", "20", "-O", str(target), *words,
                           f"http://127.0.0.1:{port}{path}"], capture_output=True, check=False)
    return [done.returncode, hashlib.sha256(target.read_bytes()).hexdigest() if target.exists() else ""]


# ---- Python's client

HTTP_CLIENT = [
    ("get", "GET", "/f/1000", None, {}), ("head", "HEAD", "/f/1000", None, {}),
    ("missing", "GET", "/missing", None, {}),
    ("none", "GET", "/status/204", None, {}), ("large", "GET", "/f/10000000", None, {}),
    ("post", "POST", "/f/1", b"hello", {}), ("post-nothing", "POST", "/f/1", b"", {}),
    ("put-chunked", "PUT", "/f/1", iter, {"Transfer-Encoding": "chunked"}), ("options", "OPTIONS", "/f/1", None, {}),
    ("known-tag", "GET", "/f/1000", None, {"If-None-Match": "TAG"}),
    ("any-tag", "GET", "/f/1", None, {"If-None-Match": "*"}),
    ("close", "GET", "/f/1", None, {"Connection": "close"}),
]


def http_client(port: int, method: str, path: str, content: object, fields: dict[str, str]) -> object:
    connection = http.client.HTTPConnection("127.0.0.1", port, timeout=20)
    try:
        if fields.get("If-None-Match") == "TAG":
            connection.request("GET", path)
            answer = connection.getresponse()
            answer.read()
            fields = {"If-None-Match": answer.headers.get("ETag", '"none"')}
        if content is iter:
            content = iter([b"hello", b"there"])
        connection.request(method, path, body=content, headers=fields,
                           encode_chunked="Transfer-Encoding" in fields)
        answer = connection.getresponse()
        found = [it for it in answer.getheaders() if it[0].lower() != "content-length"]
        return [answer.status, kept(found), told(answer.read())]
    except (OSError, http.client.HTTPException) as error:
        return type(error).__name__
    finally:
        connection.close()


# ---- Node's client

NODE = [
    {"name": "get", "method": "GET", "path": "/f/1000"}, {"name": "head", "method": "HEAD", "path": "/f/1000"},
    {"name": "large", "method": "GET", "path": "/f/10000000"}, {"name": "missing", "method": "GET", "path": "/missing"},
    {"name": "none", "method": "GET", "path": "/status/204"},
    {"name": "post", "method": "POST", "path": "/f/1", "content": "hello"},
    {"name": "put-chunked", "method": "PUT", "path": "/f/1", "chunked": ["hello", "there"]},
    {"name": "delete", "method": "DELETE", "path": "/f/1"}, {"name": "front", "method": "GET", "path": "/"},
    {"name": "echo-trailers", "method": "POST", "path": "/echo", "chunked": ["hello"], "trailers": {"Server-Timing": "a"},
     "fields": {"Trailer": "Server-Timing"}, "echoes": True},
    {"name": "trailers", "method": "GET", "path": "/trailers", "fields": {"TE": "trailers"}, "echoes": True},
    {"name": "hints", "method": "GET", "path": "/hints", "echoes": True},
    {"name": "chunked", "method": "GET", "path": "/chunked", "echoes": True},
    {"name": "until-close", "method": "GET", "path": "/close", "echoes": True},
    {"name": "slow", "method": "GET", "path": "/slow", "echoes": True},
]


def node(port: int, cases: list[dict[str, object]]) -> list[object]:
    text = processes.output(["node", str(HERE / "ask.js"), str(port), json.dumps(cases)], timeout=120)
    answers = []
    for it, case in zip(json.loads(text), cases):
        if "fields" in it:
            pairs = list(zip(it["fields"][::2], it["fields"][1::2]))
            it["fields"] = kept([(name, value) for name, value in pairs if name.lower() != "content-length"])
            it["trailers"] = [word.lower() for word in it["trailers"]]
        if case["path"] == "/echo":
            it.pop("sum", None)
        answers.append(it)
    return answers


# ---- bytes

# What a client sends, and the statuses of the final answers that it gets, or a set of those that it may get.
RAW = [
    ("pipelined", b"GET /f/1 HTTP/1.1\r\nHost: a\r\n\r\nGET /f/1000 HTTP/1.1\r\nHost: a\r\n\r\n"
     b"GET /missing HTTP/1.1\r\nHost: a\r\nConnection: close\r\n\r\n", [200, 200, 404]),
    ("pipelined-with-content", b"POST /echo HTTP/1.1\r\nHost: a\r\nContent-Length: 5\r\n\r\nhello"
     b"POST /echo HTTP/1.1\r\nHost: a\r\nTransfer-Encoding: chunked\r\n\r\n5\r\nhello\r\n0\r\n\r\n"
     b"GET / HTTP/1.1\r\nHost: a\r\nConnection: close\r\n\r\n", [200, 200, 200]),
    ("pipelined-head", b"HEAD /f/1000 HTTP/1.1\r\nHost: a\r\n\r\n"
     b"GET / HTTP/1.1\r\nHost: a\r\nConnection: close\r\n\r\n", [200, 200]),
    ("pipelined-none", b"GET /status/204 HTTP/1.1\r\nHost: a\r\n\r\nGET /not-modified HTTP/1.1\r\nHost: a\r\n\r\n"
     b"GET / HTTP/1.1\r\nHost: a\r\nConnection: close\r\n\r\n", [204, 304, 200]),
    ("both-in-response", b"GET /both HTTP/1.1\r\nHost: a\r\nConnection: close\r\n\r\n", [502]),
    ("two-lengths-in-response", b"GET /two-lengths HTTP/1.1\r\nHost: a\r\nConnection: close\r\n\r\n", [502]),
    ("bad-length-in-response", b"GET /bad-length HTTP/1.1\r\nHost: a\r\nConnection: close\r\n\r\n", [502]),
    ("coding-in-response", b"GET /coding HTTP/1.1\r\nHost: a\r\nConnection: close\r\n\r\n", [502]),
    ("blank-before-colon-in-response", b"GET /blank-before-colon HTTP/1.1\r\nHost: a\r\nConnection: close\r\n\r\n",
     [502]),
    ("no-http-in-response", b"GET /no-http HTTP/1.1\r\nHost: a\r\nConnection: close\r\n\r\n", [502]),
    ("no-response", b"GET /nothing HTTP/1.1\r\nHost: a\r\nConnection: close\r\n\r\n", [502]),
    ("cut-head-in-response", b"GET /cut-head HTTP/1.1\r\nHost: a\r\nConnection: close\r\n\r\n", [502]),
    ("max-forwards-0", b"OPTIONS /echo HTTP/1.1\r\nHost: a\r\nMax-Forwards: 0\r\nConnection: close\r\n\r\n", [200]),
    ("trace-0", b"TRACE /echo HTTP/1.1\r\nHost: a\r\nMax-Forwards: 0\r\nConnection: close\r\n\r\n", [{200, 405, 501}]),
    ("bad-max-forwards", b"TRACE /echo HTTP/1.1\r\nHost: a\r\nMax-Forwards: x\r\nConnection: close\r\n\r\n",
     [400]),
    ("expectation-unknown", b"POST /echo HTTP/1.1\r\nHost: a\r\nExpect: x\r\nContent-Length: 0\r\n"
     b"Connection: close\r\n\r\n", [417]),
    # (a coding that isn't known, or content whose end isn't: RFC 9112, sections 6.1 and 6.3)
    ("unknown-coding", b"POST /echo HTTP/1.1\r\nHost: a\r\nTransfer-Encoding: gzip, chunked\r\nConnection: close\r\n"
     b"\r\n0\r\n\r\n", [{400, 501}]),
    ("coding-without-chunks", b"POST /echo HTTP/1.1\r\nHost: a\r\nTransfer-Encoding: gzip\r\nConnection: close\r\n\r\n",
     [400]),
    ("absolute-form", b"GET http://b.example/echo HTTP/1.1\r\nHost: a\r\nConnection: close\r\n\r\n", [200]),
]
# Responses whose content is cut: the client sees that it isn't whole.
CUT = ["/cut-length", "/cut-chunk", "/cut-chunks", "/bad-chunk"]
# Clients that send a byte at a time, stop within a message, or close at once.
SLOW = (b"POST /echo HTTP/1.1\r\nHost: a\r\nTransfer-Encoding: chunked\r\nConnection: close\r\n\r\n"
        b"5\r\nhello\r\n0\r\n\r\n")


def received(port: int, sent: bytes, pause: float = 0, shuts: bool = False) -> bytes:
    """What a client gets for these bytes, which it sends at once or a byte at a time."""
    found = b""
    with socket.create_connection(("127.0.0.1", port), timeout=10) as connection:
        with contextlib.suppress(OSError):
            if pause:
                for at in range(len(sent)):
                    connection.sendall(sent[at:at + 1])
                    time.sleep(pause)
            else:
                connection.sendall(sent)
            if shuts:
                connection.shutdown(socket.SHUT_WR)
            while piece := connection.recv(65536):
                found += piece
    return found


def finals(found: bytes) -> list[int]:
    return [int(it) for it in re.findall(rb"HTTP/1\.[01] ([2-5]\d\d) ", found)]


def is_whole(found: bytes) -> bool:
    """Whether a client takes the content of a response for whole."""
    head, _, content = found.partition(b"\r\n\r\n")
    if length := re.search(rb"(?i)\r\ncontent-length: *(\d+)", head):
        return len(content) >= int(length[1])
    if re.search(rb"(?i)\r\ntransfer-encoding: *chunked", head):
        return content.endswith(b"0\r\n\r\n")
    return bool(head)


# ---- all of them


class Exchanges:
    """The exchanges of one origin: each is made without the gateway and through it."""

    def __init__(self, part: Part, origin: Origin, direct: int, through: int, work: Path) -> None:
        self.part, self.origin, self.direct, self.through, self.work = part, origin, direct, through, work
        self.counts: dict[str, int] = {}

    def alike(self, client: str, name: str, ask: Callable[[int], object]) -> None:
        self.wanted(client, name, ask(self.through), ask(self.direct))

    def wanted(self, client: str, name: str, found: object, wanted: object) -> None:
        self.counts[client] = self.counts.get(client, 0) + 1
        if found != wanted:
            self.part.faults.append(f"{client}, {self.origin.name}, {name}: {found}, wanted {wanted}"[:900])

    def run(self) -> None:
        self.run_curl()
        for name, words, path in WGET:
            self.alike("wget", name, lambda port: wget(port, words, path, self.work))
        for name, method, path, content, fields in HTTP_CLIENT:
            self.alike("Python", name, lambda port: http_client(port, method, path, content, fields))
        cases = [it for it in NODE if self.origin.echoes or not it.get("echoes")]
        for case, found, wanted in zip(cases, node(self.through, cases), node(self.direct, cases)):
            self.wanted("Node", str(case["name"]), found, wanted)
        if self.origin.is_scripted:
            self.run_bytes()

    def run_curl(self) -> None:
        for name, words, path, wants in CURL:
            if (wants in ("echo", "form") and not self.origin.echoes) or (
                    wants in ("script", "early") and not self.origin.is_scripted):
                continue
            if wants == "form":  # (curl takes another boundary each time)
                answer = curl(self.through, words, path, self.work)
                self.wanted("curl", name, answer[2]["length"] > 0, True)
            elif wants == "early":  # (a gateway that sends the content first may find the connection closed)
                answer = curl(self.through, words, path, self.work)
                self.wanted("curl", name, answer[0][:3] in ("413", "502"), True)
            else:
                self.alike("curl", name, lambda port: curl(port, words, path, self.work))

    def run_browser(self, www: Path) -> None:
        found, wanted = chromium(self.through, www), chromium(self.direct, www)
        for name in wanted or ["page"]:
            self.wanted("Chromium", name, found.get(name), wanted.get(name, "an answer"))

    def run_bytes(self) -> None:
        for name, sent, statuses in RAW:
            found = finals(received(self.through, sent))
            permitted = [it if isinstance(it, set) else {it} for it in statuses]
            is_permitted = len(found) == len(permitted) and all(map(operator.contains, permitted, found))
            self.wanted("bytes", name, statuses if is_permitted else found, statuses)
        absolute = b"GET http://b.example/echo HTTP/1.1\r\nHost: a\r\nConnection: close, X-Hop\r\nX-Hop: 1\r\n\r\n"
        found = received(self.through, absolute)
        self.wanted("bytes", "authority of the target", b'["host", "b.example"]' in found, True)
        self.wanted("bytes", "hop-by-hop field", b"x-hop" in found.lower(), False)
        self.wanted("bytes", "Via of the request", b'["via", "1.1 ' in found, True)
        self.wanted("bytes", "Via of the response", b"\r\nvia: 1.1 " in found.lower(), True)
        for path in CUT:
            found = received(self.through, f"GET {path} HTTP/1.1\r\nHost: a\r\n\r\n".encode())
            self.wanted("bytes", path, is_whole(found) and finals(found) == [200], False)
        self.wanted("bytes", "slow client", finals(received(self.through, SLOW, 0.005)), [200])
        self.wanted("bytes", "half-closed client", finals(received(self.through, SLOW, shuts=True)), [200])
        for at in range(1, len(SLOW), 12):
            received(self.through, SLOW[:at], shuts=True)
            self.wanted("bytes", f"cut at {at}", finals(received(self.through, SLOW)), [200])


def chromium(port: int, www: Path) -> dict[str, str]:
    """What a page in the browser tells of its requests, by their names."""
    told = www / "told"
    told.unlink(missing_ok=True)
    with Browser("chromium", f"http://127.0.0.1:{port}/page.html"):
        for _ in range(600):
            time.sleep(0.1)
            if told.exists() and told.stat().st_size:
                return dict(it.split("=", 1) for it in told.read_text().split("\n"))
    return {}


def peak_of(names: str) -> int:
    """The most memory in KiB that a running process of the name has taken."""
    most = 0
    for status in Path("/proc").glob("[0-9]*/status"):
        with contextlib.suppress(OSError):
            text = status.read_text()
            if text.startswith(f"Name:\t{names[:15]}\n") and (found := re.search(r"VmHWM:\s+(\d+)", text)):
                most = max(most, int(found[1]))
    return most


def large(part: Part, through: int, folder: Path) -> None:
    """1 GiB in each direction, by its length and in chunks, and the memory of the gateway meanwhile."""
    name, url, length = "typed-headers-gate", f"http://127.0.0.1:{through}", 1 << 30
    (folder / "huge").touch()
    os.truncate(folder / "huge", length)
    received = ["-o", "/dev/null", "-w", "%{size_download}"]
    for what, words in (
        ("to the origin by length", ["-T", "huge", f"{url}/echo"]),
        ("to the origin by chunks", ["-H", "Transfer-Encoding: chunked", "-T", "huge", f"{url}/echo"]),
        ("from the origin by length", [*received, f"{url}/zeros/length/{length}"]),
        ("from the origin by chunks", [*received, f"{url}/zeros/chunks/{length}"]),
    ):
        process = subprocess.Popen(["curl", "-s", *words], cwd=folder, stdout=subprocess.PIPE,
                                   stderr=subprocess.DEVNULL)
        most = 0
        while process.poll() is None:
            most = max(most, peak_of(name))
            time.sleep(0.05)
        text = process.stdout.read()
        arrived = json.loads(text)["length"] if text.startswith(b"{") else int(text or 0)
        part.want(f"bytes that arrive of 1 GiB {what}", arrived, length)
        part.counts.append(f"peak memory {most} KiB")
        if not 0 < most < 4096:
            part.faults.append(f"1 GiB {what} takes {most} KiB of memory")
    (folder / "huge").unlink()


@contextlib.contextmanager
def running(origin: Origin, port: int, work: Path, www: Path) -> Iterator[None]:
    names = {"PORT": str(port), "WORK": str(work), "FOLDER": str(www)}
    if origin.config:
        processes.fill(HERE / origin.config, work / origin.config, names)
    words = [processes.filled(word, names) for word in origin.words]
    with processes.server(words, port, "/", work / f"{origin.name}.log"):
        yield


def run(context: Context) -> Part:
    part = Part("Exchanges between clients and origins")
    asked = os.environ.get("GATEWAY_UNDER_TEST")
    known = [it for it in [gateways.OURS, *gateways.OTHERS] if it.name == (asked or "ours")]
    www = context.work / "www"
    (www / "f").mkdir(parents=True)
    (www / "index.txt").write_text("here\n")
    for size in SIZES:
        (www / "f" / str(size)).write_bytes((b"0123456789abcde\n" * (size // 16 + 1))[:size])
    (www / "page.html").write_bytes((HERE / "page.html").read_bytes())
    rows = []
    for number, origin in enumerate(ORIGINS):
        work = context.work / origin.name
        work.mkdir()
        work.chmod(0o755)
        (work / "upload").write_bytes(UPLOAD)
        direct, through = FIRST_PORT + 2 * number, FIRST_PORT + 2 * number + 1
        try:
            with running(origin, direct, work, www), known[0].running(through, direct, work):
                exchanges = Exchanges(part, origin, direct, through, work)
                exchanges.run()
                if origin.is_scripted:
                    try:
                        exchanges.run_browser(www)
                    except Missing as error:
                        part.missing.append(str(error))
                    if not asked:
                        large(part, through, work)
        except Missing as error:
            part.missing.append(f"{origin.name}: {error}")
            continue
        rows.append([origin.name, *(exchanges.counts.get(it, 0) for it in CLIENTS), sum(exchanges.counts.values())])
    total = sum(row[-1] for row in rows)
    part.counts.insert(0, f"{total} exchanges, {len(part.faults)} otherwise than without the gateway")
    part.section += ["Each exchange is made through the gateway and without it. Status, end-to-end fields and content",
                     "are the same, or, where the gateway has to answer itself, as the RFCs say.", ""]
    part.table(["Origin", *CLIENTS, "All"], rows)
    return part


CLIENTS = ["curl", "wget", "Python", "Node", "Chromium", "bytes"]
