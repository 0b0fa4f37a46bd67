"""Servers and libraries that answer conditional requests: what each answers to the cases."""
import os
import re
from dataclasses import dataclass
from pathlib import Path

from common import client, processes
from common.client import Response
from common.dates import valid_date
from common.fields import Fields
from common.processes import PYTHON, Missing
from conditional.cases import KINDS, MODIFIED, Case, filled_lines
from conditional.model import ENTITY_TAG, Answer

PEERS = Path(__file__).with_name("peers")
FIRST_PORT = 18100
LENGTHS = (0, 1, 10, 11, 1000, 10000)
NOW = 1795657000


@dataclass
class Server:
    """The command that serves the folder at @PORT@, the kinds of validators that it has, and whether it leaves other
    methods than GET and HEAD to its application."""

    name: str
    words: list[str]
    version: list[str]
    kinds: list[str]
    has_methods: bool = False
    config: str = ""


def script(name: str, *words: str) -> list[str]:
    return [PYTHON, str(PEERS / name), "@PORT@", "@FOLDER@", *words]


def package(name: str) -> list[str]:
    return [PYTHON, "-c", f"from importlib.metadata import version; print(version('{name}'))"]


SERVERS = [
    Server("Go `http.ServeContent`", ["@WORK@/go_server", "@PORT@", "@FOLDER@"], ["go", "version"], KINDS, True),
    Server("nginx", ["nginx", "-c", "@WORK@/nginx.conf", "-e", "@WORK@/nginx.error"], ["nginx", "-v"],
           ["strong", "none"],
           config="nginx.conf"),
    Server("Apache", ["apache2", "-f", "@WORK@/apache.conf", "-DFOREGROUND"], ["apache2", "-v"], ["strong", "none"],
           config="apache.conf"),
    Server("node `send`", ["node", str(PEERS / "send_server.js"), "@PORT@", "@FOLDER@"],
           ["node", "-p", "require('send/package').version"], KINDS, True),
    Server("aiohttp", script("aiohttp_server.py"), package("aiohttp"), ["strong"]),
    Server("Tornado", script("tornado_server.py"), package("tornado"), ["strong"]),
    Server("Starlette", script("starlette_server.py"), package("starlette"), ["strong"]),
    Server("Werkzeug", script("wsgi_server.py", "werkzeug"), package("werkzeug"), KINDS, True),
    Server("Django", script("wsgi_server.py", "django"), package("django"), KINDS, True),
    Server("WebOb", script("wsgi_server.py", "webob"), package("webob"), KINDS, True),
]


@dataclass
class Given:
    """What a server answered to a case, and the validators of its own representation."""

    case: Case
    lines: Fields
    etag: str | None
    modified: int | None
    answer: Answer


def content(length: int) -> bytes:
    return bytes((place * 7 + place // 251) % 256 for place in range(length))


def make_files(folder: Path) -> None:
    """The files of each length; a second folder is served without entity tags."""
    for place in (folder, folder.with_name(folder.name + "-none")):
        place.mkdir(parents=True)
        place.chmod(0o755)
        for length in LENGTHS:
            path = place / str(length)
            path.write_bytes(content(length))
            os.utime(path, (MODIFIED, MODIFIED))


CONTENT_RANGE = re.compile(r"content-range: *bytes (\d+)-(\d+)/(\d+)", re.IGNORECASE)


def parts_of(response: Response) -> list[tuple[int, int]]:
    """The positions that a 206 says it sends, in its order."""
    boundary = re.match(r'multipart/byteranges.*boundary="?([^";]+)', response.get("content-type") or "", re.IGNORECASE)
    if not boundary:
        texts = [f"content-range: {response.get('content-range') or ''}"]
    else:
        pieces = response.body.split(b"--" + boundary[1].encode())[1:-1]
        texts = [it.partition(b"\r\n\r\n")[0].decode("latin-1") for it in pieces]
    return [(int(found[1]), int(found[2])) for text in texts if (found := CONTENT_RANGE.search(text))]


def ask(port: int, case: Case, lines: Fields) -> Answer:
    """The answer; status 0 if none came."""
    body = b"x" if case.method in ("POST", "PUT") else None
    try:
        response = client.ask(port, case.method, f"/{case.kind}/{case.length}", lines, body)
    except client.FAILURES:
        return 0, ()
    return response.status, tuple(parts_of(response)) if response.status == 206 else ()


def answers_of(server: Server, cases: list[Case], work: Path) -> list[Given]:
    port = FIRST_PORT + SERVERS.index(server)
    names = {"PORT": str(port), "WORK": str(work), "FOLDER": str(work / "files")}
    if server.words[0] == "@WORK@/go_server":
        processes.output(["go", "build", "-o", work / "go_server", PEERS / "go_server.go"])
    elif not processes.has(server.words[0]):
        raise Missing(f"there is no {server.words[0]}")
    make_files(work / "files")
    if server.config:
        processes.fill(PEERS / server.config, work / server.config, names)
    words = [processes.filled(word, names) for word in server.words]
    found = []
    with processes.server(words, port, f"/{server.kinds[0]}/10000", work / "log"):
        validators: dict[tuple[str, int], tuple[str | None, int | None]] = {}
        for case in cases:
            if case.kind not in server.kinds or (case.method not in ("GET", "HEAD") and not server.has_methods):
                continue
            if (case.kind, case.length) not in validators:
                plain = client.ask(port, "GET", f"/{case.kind}/{case.length}", [])
                date = plain.get("last-modified")
                validators[case.kind, case.length] = plain.get("etag"), valid_date(date, NOW) if date else None
            etag, modified = validators[case.kind, case.length]
            lines = filled_lines(case, etag, modified)
            is_tag = etag is not None and ENTITY_TAG.fullmatch(etag)
            found.append(Given(case, lines, etag if is_tag else None, modified, ask(port, case, lines)))
    return found
