"""All that a page loads by CORS and not by `fetch` alone: pictures, scripts, styles, fonts, sound, events, beacons;
from a page of http, and from one of file:, whose origin is `null`."""
import asyncio
import json
import tempfile
from collections.abc import Iterator
from dataclasses import dataclass
from pathlib import Path

from common.browsers import Browser
from common.server import Request, Response, Server
from cors import ours
from cors import policy as model
from cors.generate import PAGE, PAGES, TARGET
from cors.policy import Policy
from cors.samples import FONT, bodies

HERE = Path(__file__).resolve().parent
BASE = f"http://127.0.0.1:{TARGET}"
SECONDS, BEACON_SECONDS = 120, 15
BODIES = bodies()


@dataclass
class Kind:
    """The media type of what is loaded, whether credentials are included, the method, and the names that need leave."""

    media: str
    includes: bool = False
    method: str = "GET"
    unsafe: tuple[str, ...] = ()


KINDS = {
    "img anonymous": Kind("image/gif"), "img use-credentials": Kind("image/gif", True),
    "script anonymous": Kind("text/javascript"), "script use-credentials": Kind("text/javascript", True),
    "module import": Kind("text/javascript"), "style anonymous": Kind("text/css"),
    "style use-credentials": Kind("text/css", True), "font": Kind("font/ttf"), "audio anonymous": Kind("audio/wav"),
    "audio use-credentials": Kind("audio/wav", True), "events": Kind("text/event-stream"),
    "events with credentials": Kind("text/event-stream", True), "fetch": Kind("text/plain"),
    "fetch with credentials": Kind("text/plain", True), "fetch PUT": Kind("text/plain", method="PUT"),
    "fetch keepalive POST of JSON": Kind("text/plain", method="POST", unsafe=("content-type",)),
    "XMLHttpRequest with credentials": Kind("text/plain", True),
    "beacon of JSON": Kind("text/plain", True, "POST", ("content-type",)),
}


def policies(origin: str) -> Iterator[Policy]:
    yield Policy()
    yield Policy(methods="*", names="*")
    yield Policy([origin])
    yield Policy([origin], ["PUT"], ["content-type"])
    yield Policy([origin], credentials=True)
    yield Policy([origin], ["PUT"], ["content-type"], credentials=True)
    yield Policy(["http://other.example"], ["PUT"], ["content-type"], credentials=True)
    yield Policy([])


class Elements:
    """The server, and what came of each pair of a kind and a policy."""

    def __init__(self, origin: str) -> None:
        self.origin = origin
        # (without the font's package there is nothing to load)
        kinds = [it for it in KINDS if it != "font" or FONT.exists()]
        self.cases = [(kind, policy) for policy in policies(origin) for kind in kinds]
        self.seen: dict[int, list[tuple[str, str | None]]] = {}
        self.found: dict[str, bool] = {}
        self.done = asyncio.Event()
        self.page = (HERE / "elements.html").read_text("utf-8").replace("BASE", BASE)

    def answer(self, request: Request) -> Response:
        free = [(b"Access-Control-Allow-Origin", b"*"), (b"Cache-Control", b"no-store")]
        if request.path == "/":
            return Response(200, [(b"Content-Type", b"text/html")], self.page.encode())
        if request.path == "/jobs":
            jobs = [{"id": number, "kind": kind, "url": f"{BASE}/e/{number}"}
                    for number, (kind, _) in enumerate(self.cases)]
            return Response(200, free, json.dumps(jobs).encode())
        if request.path == "/found":
            self.found = json.loads(request.body)
            self.done.set()
            return Response(200, free)
        if not request.path.startswith("/e/"):
            return Response(404)
        return self.answer_case(request, int(request.path[3:]))

    def answer_case(self, request: Request, number: int) -> Response:
        name, policy = self.cases[number]
        kind = KINDS[name]
        origins = request.get(b"origin")
        self.seen.setdefault(number, []).append((request.method.decode(), origins[0].decode() if origins else None))
        own = [(b"Content-Type", kind.media.encode()), (b"Cache-Control", b"no-store")]
        fields = model.applied(ours.answer(policy, request.method, request.fields, own), own)
        body = b"window.x = 1;" if name.startswith("script") else BODIES[kind.media]
        return Response(204 if request.method == b"OPTIONS" else 200, fields, body)

    def wrong(self) -> list[str]:
        found = []
        for number, (name, policy) in enumerate(self.cases):
            kind, seen = KINDS[name], self.seen.get(number, [])
            wanted = model.allows_request(policy, self.origin, kind.includes, kind.method, kind.unsafe)
            # (a beacon has no result: whether it came shows here)
            came = any(method == "POST" for method, _ in seen) if name == "beacon of JSON" else self.found[str(number)]
            if came != wanted or {origin for _, origin in seen} != {self.origin}:
                found.append(f"{name} from {self.origin} by {policy}: browser {came}, policy {wanted}, requests {seen}")
        return found


async def judge(browser: str) -> tuple[int, list[str]]:
    """How many loads were tried, and those that came otherwise than the policy says."""
    count, wrong = 0, []
    for origin in (PAGES["ip"], "null"):
        elements = Elements(origin)
        with tempfile.TemporaryDirectory() as folder:
            page = Path(folder, "page.html")
            page.write_text(elements.page, "utf-8")
            url = page.as_uri() if origin == "null" else origin + "/"
            async with Server([PAGE, TARGET], elements.answer):
                with Browser(browser, url):
                    await asyncio.wait_for(elements.done.wait(), SECONDS)
                    # (a beacon may come after the page has told what it found)
                    for _ in range(BEACON_SECONDS):
                        if not elements.wrong():
                            break
                        await asyncio.sleep(1)
        count += len(elements.cases)
        wrong += elements.wrong()
    return count, wrong
