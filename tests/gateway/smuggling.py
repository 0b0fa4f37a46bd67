"""Sends the attempts of corpus.txt through gateways, and holds what reaches the origin to the RFCs."""
import concurrent.futures
import itertools
import re
import socket
import time
from dataclasses import dataclass
from pathlib import Path

import gateways
from common.part import Context, Part, code
from common.processes import Missing
from gateways import Gateway
from readings import READINGS, Message, Read, messages_of
from recorder import Recorder

CORPUS = Path(__file__).with_name("corpus.txt")
FIRST_PORT = 18500
# A gateway is done with an attempt if it says nothing for so long, in seconds: before all that may come, and after it.
PATIENCE, AFTERWARDS = 2.0, 0.15
ESCAPE = re.compile(r"\\(x[0-9a-f]{2}|.)")
PRINTED = {13: "\\r", 10: "\\n", 9: "\\t", 92: "\\\\"}
PLAIN = {"r": "\r", "n": "\n", "t": "\t", "\\": "\\"}
STATUS = re.compile(rb"HTTP/1\.[01] (\d{3})")


def unescaped(text: str) -> bytes:
    return ESCAPE.sub(lambda it: PLAIN.get(it[1]) or chr(int(it[1][1:], 16)), text).encode("latin-1")


@dataclass(frozen=True)
class Attempt:
    name: str
    subject: str
    permitted: tuple[str, ...]
    sent: bytes

    def most(self) -> int:
        """How many answers there may be."""
        return max(counted(it)[0] + counted(it)[1] for it in self.permitted)


def counted(permitted: str) -> tuple[int, int]:
    """How many messages an outcome has, and how many errors."""
    words = re.split(r", (?=[A-Za-z]+ [/*h]|reject$)", permitted)
    messages = [it for it in words if it not in ("reject", "none")]
    return len(messages), len(words) - len(messages)


def attempts() -> list[Attempt]:
    found, subject = [], ""
    for line in CORPUS.read_text("ascii").split("\n"):
        if line.startswith("#"):
            subject = line[2:]
        elif line:
            name, permitted, sent = line.split("\t")
            found.append(Attempt(name, subject, tuple(permitted.split(" or ")), unescaped(sent)))
    return found


@dataclass
class Outcome:
    """What an attempt came to: the statuses that the client got, the messages that a strict origin reads, whether
    nothing follows them, and whether two servers read different messages."""

    statuses: list[int]
    messages: list[Message]
    is_whole: bool
    differs: bool

    def shown(self) -> str:
        """The outcome as the corpus has it."""
        if not self.messages:
            return "reject" if any(it >= 400 for it in self.statuses) else "none"
        found = ", ".join(shown(it) for it in self.messages)
        return f"{found}, reject" if len(self.statuses) > len(self.messages) else found

    def is_permitted(self, attempt: Attempt) -> bool:
        found = self.shown()
        if found == "none" and "none" not in attempt.permitted:
            # (a gateway may close the connection in place of an error, if no part of a message went on)
            return "reject" in attempt.permitted and self.is_whole
        if not self.messages:
            return "reject" in attempt.permitted or "none" in attempt.permitted
        # (a gateway may close the connection in place of an error)
        wanted = {it.removesuffix(", reject") for it in attempt.permitted}
        return self.is_whole and found.removesuffix(", reject") in wanted


def printed(text: bytes) -> str:
    return "".join(PRINTED.get(b) or (chr(b) if 32 <= b < 127 else f"\\x{b:02x}") for b in text)


def shown(message: Message) -> str:
    method, target, content = message
    return f"{method} {printed(target.encode('latin-1'))}" + (f"={printed(content)}" if content else "")


def statuses_of(port: int, attempt: Attempt) -> tuple[int, list[int]]:
    """The client's port, and the final statuses that it gets. It waits a moment longer than for all that may come."""
    received = b""
    found: list[int] = []
    with socket.create_connection(("127.0.0.1", port), timeout=10) as connection:
        own = connection.getsockname()[1]
        try:
            connection.sendall(attempt.sent)
            connection.settimeout(PATIENCE)
            while piece := connection.recv(65536):
                received += piece
                found = [int(it) for it in STATUS.findall(received) if not it.startswith(b"1")]
                if len(found) >= attempt.most():
                    connection.settimeout(AFTERWARDS)
        except OSError:
            pass
    return own, found


def outcome_of(recorder: Recorder, port: int, attempt: Attempt) -> Outcome:
    recorder.forget()
    _, statuses = statuses_of(port, attempt)
    streams, now = None, recorder.taken()
    while now != streams:
        time.sleep(AFTERWARDS)
        streams, now = now, recorder.taken()
    messages: list[Message] = []
    is_whole, differs = True, False
    for stream in now:
        read = [messages_of(it, stream) for it in READINGS]
        messages += read[0][0]
        is_whole = is_whole and read[0][1] == "whole"
        differs = differs or any(are_apart(one, other) for one, other in itertools.combinations(read, 2))
    return Outcome(statuses, messages, is_whole, differs)


def are_apart(one: Read, other: Read) -> bool:
    """Whether two servers read different messages. One that rejects the rest reads nothing different."""
    shorter, longer = sorted((one, other), key=lambda it: len(it[0]))
    common = len(shorter[0])
    return shorter[0] != longer[0][:common] or (len(longer[0]) > common and shorter[1] != "malformed")


def outcomes_of(gateway: Gateway, number: int, work: Path) -> list[Outcome]:
    port, origin = FIRST_PORT + 2 * number, FIRST_PORT + 2 * number + 1
    with Recorder(origin) as recorder, gateway.running(port, origin, work):
        return [outcome_of(recorder, port, it) for it in attempts()]


def cell(outcome: Outcome, attempt: Attempt) -> str:
    status = str(outcome.statuses[0]) if outcome.statuses else "closed"
    text = f"{status}, {len(outcome.messages)}" if outcome.messages else status
    return text + (" differs" if outcome.differs else "") + ("" if outcome.is_permitted(attempt) else " (!)")


def run(context: Context) -> Part:
    part = Part("Smuggling and desync attempts")
    asked = [gateways.OURS, *gateways.OTHERS]
    corpus = attempts()
    judged: dict[str, list[Outcome]] = {}
    with concurrent.futures.ThreadPoolExecutor(len(asked)) as pool:
        pending = {it.name: pool.submit(outcomes_of, it, number, context.work) for number, it in enumerate(asked)}
    for gateway in asked:
        try:
            judged[gateway.title()] = pending[gateway.name].result()
        except Missing as error:
            part.missing.append(f"{gateway.name}: {error}")
    part.section += [
        f"A client sends {len(corpus)} attempts to make two servers read different messages in the same bytes",
        "(`tests/gateway/corpus.txt`), each on a connection of its own. Behind each gateway is an origin that keeps",
        f"what it receives. Then {len(READINGS)} servers read those bytes: one by RFC 9112 for the plain forms, the",
        "others with a mistake or a limit each, as the last of two lengths, a length before a coding, any value with",
        "`chunked` in it, LF alone as the end of a line, lengths of 63 bits.", "",
    ]
    rows = []
    for title, outcomes in judged.items():
        rows.append([
            title, sum(not it.messages for it in outcomes), sum(bool(it.messages) for it in outcomes),
            sum(bool(it.differs) for it in outcomes),
            sum(not it.is_permitted(attempt) for it, attempt in zip(outcomes, corpus)),
        ])
    part.table(["Gateway", "No message reaches the origin", "Messages do", "Read differently",
                "Other than the RFCs say"], rows)
    part.section += [
        "In the table below, a cell has the first status that the client gets, and how many messages reach the origin.",
        "`differs` says that two of these servers read different messages in them, and `(!)` that RFC 9110 to 9112",
        "say that something else must or should be done.",
        "`closed` is a connection that ends without an answer, or stays open without one.", "",
    ]
    part.table(["Attempt", "By the RFCs", *(it.split(" ")[0] for it in judged)], [
        [code(attempt.name), permitted(attempt), *(cell(it[number], attempt) for it in judged.values())]
        for number, attempt in enumerate(corpus)
    ])
    for title, outcomes in judged.items():
        differing = [attempt.name for it, attempt in zip(outcomes, corpus) if it.differs]
        other = [f"{attempt.name}: {it.shown()[:80]}" for it, attempt in zip(outcomes, corpus)
                 if not it.is_permitted(attempt)]
        part.counts.append(f"{title}: {len(differing)} read differently, {len(other)} other than permitted")
        if title.startswith("ours"):
            part.faults += [f"read differently: {it}" for it in differing]
            part.faults += [f"other than permitted: {it}" for it in other]
    return part


def permitted(attempt: Attempt) -> str:
    """What the RFCs permit, in short: an error, or so many messages."""
    kinds = []
    for it in attempt.permitted:
        count = counted(it)[0]
        kind = {"reject": "an error", "none": "nothing"}.get(it) or f"{count} message{'s' if count > 1 else ''}"
        if kind not in kinds:
            kinds.append(kind)
    return " or ".join(kinds)
