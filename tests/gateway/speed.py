"""How fast gateways are before the same origin."""
import os
import re
import time
from contextlib import ExitStack

import gateways
from common import processes
from common.part import Context, Part
from common.processes import Missing
from traffic import ORIGINS, running

FIRST_PORT = 18580
# (fewer requests over a kept connection than after which the origin closes it: 1000)
CONNECTIONS, KEPT, NEW = 4, 2000, 400
LARGE = 256 << 20


def requests_a_second(port: int, requests: int, *words: str) -> float:
    text = processes.output(["ab", "-q", "-n", str(requests), "-c", str(CONNECTIONS), *words,
                             f"http://127.0.0.1:{port}/f/1000"]).decode()
    if not re.search(r"Failed requests: +0\n", text) or "Non-2xx" in text:
        raise Missing(f"requests failed: {text[-300:]}")
    return float(re.search(r"Requests per second: +([\d.]+)", text)[1])


def megabytes_a_second(port: int) -> float:
    began = time.time()
    words = ["curl", "-s", "-f", "-o", "/dev/null", "-w", "%{size_download}", f"http://127.0.0.1:{port}/f/large"]
    if int(processes.output(words)) != LARGE:
        raise Missing("the large content is cut")
    return LARGE / 1e6 / (time.time() - began)


def row(port: int) -> list[object]:
    load = os.getloadavg()[0]
    return [f"{requests_a_second(port, KEPT, '-k'):.0f}", f"{requests_a_second(port, NEW):.0f}",
            f"{megabytes_a_second(port):.0f}", f"{load:.1f}"]


def run(context: Context) -> Part:
    part = Part("Speed")
    www = context.work / "www"
    (www / "f").mkdir(parents=True)
    (www / "index.txt").write_text("here\n")
    (www / "f/1000").write_bytes(b"x" * 1000)
    (www / "f/large").touch()
    os.truncate(www / "f/large", LARGE)
    origin = next(it for it in ORIGINS if it.name == "nginx")
    rows = []
    with ExitStack() as stack:
        work = context.work / "origin"
        work.mkdir()
        stack.enter_context(running(origin, FIRST_PORT, work, www))
        asked = [gateways.OURS, *(it for it in gateways.OTHERS if it.name in ("nginx", "HAProxy"))]
        for number, gateway in enumerate(asked, 1):
            port = FIRST_PORT + number
            work = context.work / gateway.name
            work.mkdir()
            try:
                with gateway.running(port, FIRST_PORT, work):
                    rows.append([gateway.title(), *row(port)])
            except Missing as error:
                part.missing.append(f"{gateway.name}: {error}")
    part.section += [
        f"`ab` asks for a file of 1,000 bytes over {CONNECTIONS} connections at a time: {KEPT} times over kept ones,",
        f"and {NEW} times over a new one each time. curl asks for one of {LARGE >> 20} MiB. The origin is nginx.",
        f"The machine has {os.cpu_count()} processors, and other work on it too: the load is the mean over the minute",
        "before.", "",
    ]
    part.table(["Gateway", "Requests a second, kept connections", "Requests a second, new connections", "MB a second",
                "Load"], rows)
    part.counts.append("; ".join(f"{it[0]}: {it[1]} and {it[2]} requests a second, {it[3]} MB a second" for it in rows))
    return part
