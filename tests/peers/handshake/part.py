"""The opening handshake of a WebSocket: servers, clients, browsers and the model of RFC 6455."""
import asyncio

from common import processes
from common.browsers import version
from common.part import Context, Part, code
from common.processes import Missing
from handshake import against_model, live, requests, responses
from handshake.peers import CLIENTS

INTRODUCTION = """
Servers are sent {requests} requests, byte for byte, most of them malformed. Clients are sent
{responses} responses, and the client end of `decide_handshake` judges the same responses to their own requests.
*Accepted against the RFC* are those for which RFC 6455 says MUST reject or fail; *rejected against the RFC* those that
keep each of its rules.
"""
REASONS = """
A client that fails where the RFC lets it open may have a reason of its own: browsers and node-ws want a subprotocol if
they asked for some, and each looks at the parameters of extensions.
""".strip().replace("\n", " ")


def versions() -> dict[str, str]:
    """The titles of the peers that are here."""
    words = {"node-ws": ["node", "-p",
                         "JSON.parse(require('fs').readFileSync('/usr/share/nodejs/ws/package.json')).version"],
             "python-websockets": [processes.PYTHON, "-c", "import websockets.version as it; print(it.version)"]}
    found = {"ours": "ours"}
    for name in ("node-ws", "python-websockets", "Chromium", "Firefox"):
        try:
            found[name] = (f"{name} {processes.output(words[name]).decode().strip()}" if name in words
                           else version(name.lower()))
        except Missing:
            found[name] = name
    return found


def servers(part: Part, titles: dict[str, str]) -> None:
    scores, unlike, missing = asyncio.run(requests.judge())
    part.missing += missing
    part.table(["Server", "requests", "accepted against the RFC", "rejected against the RFC"],
               [[titles[it.name], it.asked, len(it.accepted), len(it.rejected)] for it in scores])
    for score in scores[1:]:
        for kind, found in (("accepts", score.accepted), ("rejects", score.rejected)):
            if found:
                part.section += [f"{titles[score.name]} {kind}: {', '.join(map(code, found))}.", ""]
    ours = scores[0]
    part.want("handshakes accepted that RFC 6455 rejects", len(ours.accepted), 0)
    part.want("handshakes rejected that RFC 6455 accepts", len(ours.rejected), 0)
    part.faults += [*(f"ours accepts {it}" for it in ours.accepted), *(f"ours rejects {it}" for it in ours.rejected)]
    part.faults += unlike


def clients(part: Part, titles: dict[str, str]) -> None:
    rows: list[list[object]] = []
    opened: dict[str, None] = {}
    for name in CLIENTS:
        try:
            score = asyncio.run(responses.judge(name))
        except Missing as missing:
            part.missing.append(f"{name}: {missing}")
            continue
        rows.append([titles[name], score.asked, score.alike, len(score.opened), len(score.failed),
                     len(score.own_opened),
                     len(score.own_failed)])
        opened |= dict.fromkeys([f"ours opens on {it}" for it in score.own_opened])
        opened |= dict.fromkeys([f"ours fails on {it}" for it in score.own_failed])
    part.table(["Client", "responses", "as ours", "accepted against the RFC", "rejected against the RFC",
                "accepted: ours", "rejected: ours"], rows)
    part.section += [REASONS, ""]
    part.want("responses on which the client end is wrong", len(opened), 0)
    part.faults += opened


def connections(part: Part) -> None:
    found, missing = asyncio.run(live.judge())
    part.missing += missing
    wrong = [it for _, _, each in found for it in each]
    part.section += [f"Whole connections, with messages up to 70,000 characters: "
                     f"{'; '.join(f'{name} {count}' for name, count, _ in found)}.", ""]
    part.want("connections that went otherwise", len(wrong), 0)
    part.faults += wrong


def run(context: Context) -> Part:
    part = Part("The handshake of a WebSocket")
    titles = versions()
    counts = {"requests": sum(1 for _ in requests.requests()), "responses": len(responses.CASES)}
    part.section += INTRODUCTION.strip().format(**counts).split("\n") + [""]
    servers(part, titles)
    clients(part, titles)
    connections(part)
    comparison = against_model.compare(context.seed, context.inputs // 2)
    part.section += [f"`decide_handshake` beside a model of RFC 6455, on {context.inputs // 2:,} random requests",
                     "and as many responses:", ""]
    part.table(["Call", "as the model", "otherwise", "malformed, without a rule"], comparison.rows())
    part.want(f"differences from the model on {context.inputs:,} inputs", comparison.differences, 0)
    part.faults += comparison.faults()
    return part
