"""Servers and clients of WebSockets: node-ws, python-websockets, Chromium and Firefox."""
import asyncio
import contextlib
import json
import logging
from collections.abc import AsyncIterator, Awaitable, Callable
from pathlib import Path
from typing import Any

from common import processes
from common.browsers import Browser
from common.processes import Missing
from common.server import Request, Response, Server

HERE = Path(__file__).resolve().parent
# The subprotocols of each server, the most wanted first.
OWN = [b"superchat", b"chat"]
SECONDS = 300

# A connection that a client opens: id, url, protocols, messages; and what came of it: id, open, echoes, protocol,
# extensions.
Job = dict[str, Any]
Result = dict[str, Any]

logging.getLogger("websockets").setLevel(logging.CRITICAL)


def websockets() -> Any:
    """The package python-websockets."""
    try:
        import websockets as package
    except ImportError as error:
        raise Missing(str(error)) from None
    return package


def want_node() -> None:
    if not processes.has("node"):
        raise Missing("there is no node")


@contextlib.asynccontextmanager
async def node_server(port: int, has_deflate: bool = False) -> AsyncIterator[None]:
    want_node()
    process = await asyncio.create_subprocess_exec(
        "node", str(HERE / "servers.js"), str(port), "deflate" if has_deflate else "", stdout=asyncio.subprocess.PIPE,
        stderr=asyncio.subprocess.DEVNULL, env=processes.environment())
    try:
        assert process.stdout
        if not await asyncio.wait_for(process.stdout.readline(), 20):
            raise Missing("node-ws doesn't start")
        yield
    finally:
        with contextlib.suppress(ProcessLookupError):
            process.terminate()
        await process.wait()


@contextlib.asynccontextmanager
async def python_server(port: int) -> AsyncIterator[None]:
    async def echo(socket: Any) -> None:
        async for message in socket:
            await socket.send(message)

    own = [it.decode() for it in OWN]
    async with websockets().serve(echo, "127.0.0.1", port, subprotocols=own, max_size=None):
        yield


async def by_node(jobs: list[Job], port: int) -> list[Result]:
    want_node()
    process = await asyncio.create_subprocess_exec(
        "node", str(HERE / "clients.js"), stdin=asyncio.subprocess.PIPE, stdout=asyncio.subprocess.PIPE,
        stderr=asyncio.subprocess.DEVNULL, env=processes.environment())
    output, _ = await asyncio.wait_for(process.communicate(json.dumps(jobs).encode()), SECONDS)
    if not output:
        raise Missing("node-ws doesn't start")
    return json.loads(output)


async def by_python(jobs: list[Job], port: int) -> list[Result]:
    results = []
    for job in jobs:
        result: Result = {"id": job["id"], "open": False, "echoes": []}
        try:
            async with websockets().connect(
                job["url"], subprotocols=job["protocols"] or None, open_timeout=5, close_timeout=3
            ) as socket:
                names = ",".join(it.name for it in socket.extensions)
                result.update(open=True, protocol=socket.subprotocol or "", extensions=names)
                for message in job["messages"]:
                    await socket.send(message)
                    result["echoes"].append(await asyncio.wait_for(socket.recv(), 10))
        except Missing:
            raise
        except Exception as error:  # whatever a client finds is a result
            result["error"] = f"{type(error).__name__}: {error}"
        results.append(result)
    return results


def by_browser(name: str) -> Callable[[list[Job], int], Awaitable[list[Result]]]:
    async def run(jobs: list[Job], port: int) -> list[Result]:
        found: asyncio.Future[list[Result]] = asyncio.get_running_loop().create_future()

        def answer(request: Request) -> Response:
            if request.path == "/page":
                return Response(200, [(b"Content-Type", b"text/html")], (HERE / "page.html").read_bytes())
            if request.path == "/page/jobs":
                return Response(200, [(b"Content-Type", b"application/json")], json.dumps(jobs).encode())
            if request.path == "/page/found":
                if not found.done():
                    found.set_result(json.loads(request.body))
                return Response(200)
            return Response(404)

        async with Server([port], answer):
            with Browser(name, f"http://127.0.0.1:{port}/page"):
                return await asyncio.wait_for(found, SECONDS)

    return run


CLIENTS: dict[str, Callable[[list[Job], int], Awaitable[list[Result]]]] = {
    "python-websockets": by_python, "node-ws": by_node, "Chromium": by_browser("chromium"),
    "Firefox": by_browser("firefox"),
}
