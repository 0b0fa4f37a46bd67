"""Holds what programs take of the attempts of corpus.txt to the readers that stand for them, and those readers to the
theorem: of a request in plain form each takes that request, or rejects it."""
import concurrent.futures
import random
from collections import Counter
from collections.abc import Callable
from dataclasses import dataclass, fields
from pathlib import Path

import byte_readers
import gateways
from byte_readers import APACHE, GO, H11, HAPROXY, NGINX, VARNISH, LineEnds, Message, NeedsMore, Reader, Rejects
from common import processes
from common.part import Context, Part, code
from common.processes import Missing
from recorder import Recorder
from smuggling import Attempt, attempts, outcome_of, statuses_of

FIRST_PORT = 18560
HERE = Path(__file__).resolve().parent
REPEATED = ("no", "first", "last", "commas", "same")
# What servers cut in different ways, whether readers of the family differ in it, and why.
CLASSES = [
    ["CR or LF alone: an error, a line end, or data; in the head, in chunk sizes, in trailers", "inside",
     "the plain form has CRLF alone"],
    ["blanks before a colon, folded lines, control bytes, odd names, lines without a colon, several blanks in a "
     "request line, empty lines before it", "inside", "none is sent"],
    ["several lengths or codings, both fields, other spellings of their values, codings in HTTP/1.0", "inside",
     "one field frames a message, in plain form"],
    ["other marks for a dash in a name", "inside if no field that is sent has such a name",
     "a premise of the theorem: `gateway_messages` drops names that look like those that it guards"],
    ["chunk sizes with blanks, extensions, many digits or none; what ends a chunk's data; trailer fields that are "
     "skipped", "inside", "sizes are the shortest, without blanks or extensions"],
    ["any other reason to reject: limits, methods, targets, Host, content, trailer fields", "inside",
     "a rejection cuts nothing"],
    ["lengths and sizes that lose bits in place of an error", "outside", "a reader rejects them from its limits on"],
    ["content that is ignored for the method (CL.0, TE.0), upgrades, tunnels", "outside",
     "a reader delimits by fields alone"],
    ["a server that has no trailer section, and takes what follows the last chunk for a request", "outside",
     "it cuts a message that has trailer fields in another way"],
    ["CR before CRLF (nginx), an empty length or name (Go), HTTP/0.9, the preface of HTTP/2", "outside",
     "seen in these programs; no such message is sent"],
    ["responses", "outside", "only requests are stated"],
    ["what is made of fields that don't frame content", "outside", "a reader says nothing of them"],
]
# What may be at each place of a reader.
CHOICES = {
    "words": ("one space", "spaces", "blanks", "spaces in target"), "folds": ("none", "joined", "own lines"),
    "controls": ("rejected", "left out", "kept"), "spelling": ("dash", "dash or underscore", "dash or mark"),
    "lengths": REPEATED, "coding_lines": REPEATED, "number": ("digits", "leading", "members"),
    "codings": ("whole", "last member", "anywhere"), "both": ("rejects", "coding first", "length first"),
    "extensions": ("none", "only blanks", "text", "blanks and text", "blank or text", "any"),
    "data_end": ("line end", "crlf", "two bytes", "any line"),
}
ALONE = ("ends", "data", "malformed")
PLAIN_REQUESTS, PLAIN_STREAMS, IN_A_STREAM = 20000, 60, 3
STANDS_FOR = {"nginx": NGINX, "HAProxy": HAPROXY, "Apache": APACHE, "Varnish": VARNISH, "Go": GO, "h11": H11}


@dataclass
class Taken:
    """The messages, without targets, which gateways change, and whether an error followed them."""

    messages: list[tuple[bytes, bytes]]
    is_rejected: bool


def closes(head: byte_readers.Head) -> bool:
    """Whether the connection ends after the message."""
    options = [it.strip().lower() for name, value in head.fields if name.lower() == b"connection"
               for it in value.split(b",")]
    return b"close" in options or head.version == b"HTTP/1.0" and b"keep-alive" not in options


def read_by(reader: Reader, data: bytes) -> Taken:
    found = []
    while data:
        try:
            (method, _, content), start, head = byte_readers.read_request(reader, data)
        except NeedsMore:
            return Taken(found, False)
        except Rejects:
            return Taken(found, True)
        found.append((method, content))
        if closes(head):
            break
        data = data[start:]
    return Taken(found, False)


def through(gateway: gateways.Gateway, number: int, work: Path, sent: list[Attempt]) -> list[Taken]:
    """What a gateway takes: it sends it on."""
    port, origin = FIRST_PORT + 2 * number, FIRST_PORT + 2 * number + 1
    found = []
    with Recorder(origin) as recorder, gateway.running(port, origin, work):
        for attempt in sent:
            outcome = outcome_of(recorder, port, attempt)
            # (a gateway may send a part of a message on before it rejects it)
            taken = outcome.messages[:sum(it < 400 for it in outcome.statuses)]
            messages = [(method.encode(), content) for method, _, content in taken]
            found.append(Taken(messages, any(it >= 400 for it in outcome.statuses)))
    return found


def by_server(words: list[str], number: int, log: Path, sent: list[Attempt]) -> list[Taken]:
    """What a server takes: it prints it."""
    port = FIRST_PORT + 2 * number
    found = []
    with processes.server([it.replace("@PORT@", str(port)) for it in words], port, "/", log):
        for attempt in sent:
            before = len(log.read_text("ascii"))
            own, statuses = statuses_of(port, attempt)
            lines = [it.split(" ") for it in log.read_text("ascii")[before:].splitlines()]
            messages = [(it[1].encode(), bytes.fromhex(it[3])) for it in lines if it[0] == str(own)]
            found.append(Taken(messages, any(it >= 400 for it in statuses)))
    return found


def built_go(work: Path) -> list[str]:
    if not processes.has("go"):
        raise Missing("there is no go")
    program = work / "taken"
    processes.output(["env", f"GOCACHE={work}/cache", "go", "build", "-o", program, HERE / "servers/taken.go"])
    return [str(program), "127.0.0.1:@PORT@"]


def asked(work: Path, sent: list[Attempt]) -> dict[str, tuple[Callable[[], list[Taken]], list[str]]]:
    """What each program took, and how to tell its version."""
    found = {
        it.name: (lambda it=it, number=number: through(it, number, work, sent), it.version)
        for number, it in enumerate(gateways.OTHERS)
    }
    found["Go"] = (lambda: by_server(built_go(work), 4, work / "go.log", sent), ["go", "version"])
    h11 = [processes.PYTHON, str(HERE / "servers/taken.py"), "@PORT@"]
    version = [processes.PYTHON, "-c", "import h11; print(h11.__version__)"]
    found["h11"] = (lambda: by_server(h11, 5, work / "h11.log", sent), version)
    return found


def kind_of(reader: Taken, program: Taken) -> str:
    """How what a program took is to what its reader takes."""
    if reader.messages == program.messages:
        return "same"
    left = iter(reader.messages)
    return "some" if all(it in left for it in program.messages) else "others"


def random_reader(chance: random.Random) -> Reader:
    given = {}
    for it in fields(Reader):
        if it.name in CHOICES:
            given[it.name] = chance.choice(CHOICES[it.name])
        elif it.type is LineEnds:
            given[it.name] = LineEnds(chance.choice(ALONE), chance.choice(ALONE))
        elif it.type is bool:
            given[it.name] = chance.random() < 0.5
        elif it.type is str:
            given[it.name] = chance.choice(CHOICES["controls"])
    return Reader(length_limit=chance.choice((4, 2**63)), size_digits=chance.choice((1, 16)), **given)


def plain_request(chance: random.Random, is_usual: bool = False) -> tuple[bytes, Message]:
    """A request in plain form, and what it says. A usual one is answered by most servers."""
    token = bytes(chance.choices(b"!#$%&'*+-.^`|~09AZaz", k=chance.randint(1, 6)))
    target = bytes(chance.choices(range(33, 127), k=chance.randint(1, 8)))
    if is_usual:
        token, target = chance.choice((b"POST", b"PUT", b"DELETE")), b"/" + bytes(chance.choices(b"abc/", k=5))
    lines = [b"Host: a"]
    for _ in range(chance.randint(0, 3)):
        name = b"x" + bytes(chance.choices(b"!#$%&'*+-.^_`|~09AZaz", k=chance.randint(0, 6)))
        value = bytes(chance.choices([*range(33, 127), 9, 32, 128, 160, 255], k=chance.randint(0, 9))).strip(b" \t")
        lines.append(name + b": " + value)
    pieces = [bytes(chance.choices(b"\r\n0;: aGET", k=chance.randint(1, 20))) for _ in range(chance.randint(0, 3))]
    content, kind = b"".join(pieces), chance.choice(["none", "length", "chunked"])
    if kind == "none":
        content, wire = b"", b""
    elif kind == "length":
        lines.insert(chance.randint(0, len(lines)), b"cOntent-length: %d" % len(content))
        wire = content
    else:
        lines.insert(chance.randint(0, len(lines)), b"Transfer-Encoding: chunked")
        trailers = [b"x-a: b\r\n"] * chance.randint(0, 2)
        wire = b"".join(b"%x\r\n%b\r\n" % (len(it), it) for it in pieces) + b"0\r\n" + b"".join(trailers) + b"\r\n"
    head = b"%b %b HTTP/1.1\r\n%b\r\n\r\n" % (token, target, b"\r\n".join(lines))
    return head + wire, (token, target, content)


def plain_streams() -> list[tuple[Attempt, list[tuple[bytes, bytes]]]]:
    """Requests in plain form, one after another, and what they say."""
    chance, found = random.Random(9110), []
    for number in range(PLAIN_STREAMS):
        requests = [plain_request(chance, is_usual=True) for _ in range(IN_A_STREAM)]
        text = b"".join(text for text, _ in requests)
        attempt = Attempt(f"plain-{number}", "", (", ".join(["GET /"] * IN_A_STREAM),), text)
        found.append((attempt, [(method, content) for _, (method, _, content) in requests]))
    return found


def check_theorem(part: Part) -> None:
    chance = random.Random(9112)
    counts: Counter[str] = Counter()
    for _ in range(PLAIN_REQUESTS):
        (text, message), reader = plain_request(chance), random_reader(chance)
        rest = bytes(chance.choices(b"\r\n0 GET:", k=chance.randint(0, 12)))
        try:
            found, start, _ = byte_readers.read_request(reader, text + rest)
            if found != message or start != len(text):
                part.faults.append(f"{reader} takes {found} of {text + rest}")
            counts["taken"] += 1
        except Rejects:
            counts["rejected"] += 1
        except NeedsMore:
            part.faults.append(f"{reader} wants more than {text}")
    part.counts.append(f"plain requests by random readers: {counts['taken']} taken, {counts['rejected']} rejected")


def run(context: Context) -> Part:
    part = Part("Readers of bytes")
    check_theorem(part)
    corpus, plain = attempts(), plain_streams()
    programs = asked(context.work, corpus + [attempt for attempt, _ in plain])
    with concurrent.futures.ThreadPoolExecutor(len(programs)) as pool:
        pending = {name: pool.submit(it[0]) for name, it in programs.items()}
    kinds = ("same", "some", "others")
    rows, differing = [], []
    for name, (_, version) in programs.items():
        try:
            found = pending[name].result()
        except Missing as error:
            part.missing.append(f"{name}: {error}")
            continue
        readers = [read_by(STANDS_FOR[name], it.sent) for it in corpus]
        counts = Counter(kind_of(*it) for it in zip(readers, found))
        part.counts.append(f"{name}: " + ", ".join(f"{counts[it]} {it}" for it in kinds))
        wholes = 0
        for (attempt, said), took in zip(plain, found[len(corpus):]):
            wholes += took.messages == said
            if took.messages != said[:len(took.messages)]:
                part.faults.append(f"{name} takes {took.messages} of {attempt.sent}")
        part.counts.append(f"{name} takes {wholes} of {len(plain)} plain streams whole")
        rows.append([processes.titled(name, version), *(counts[it] for it in kinds), wholes])
        differing += [[name, code(attempt.name), shown(reader), shown(program)]
                      for attempt, reader, program in zip(corpus, readers, found)
                      if kind_of(reader, program) == "others"]
    part.section += [
        f"Each program is sent the {len(corpus)} attempts of `tests/gateway/corpus.txt`, each on a connection of its",
        "own. What it takes is compared with what the reader that stands for it takes",
        "(`crates/gateway_connection/specs/ReadersInUse.antt`): methods and content, as far as the program sends them",
        "on or prints them. A program that takes some of the messages rejects the others, or ends the connection, for a",
        "reason that its reader doesn't have: the theorem allows for each.",
        f"Each is also sent {len(plain)} streams of {IN_A_STREAM} requests in plain form, of which it has to take the",
        "first ones, as they are. Varnish takes no trailer fields.", "",
    ]
    part.table(["Program", "The same messages", "Some of them", "Others", "Plain streams whole"], rows)
    part.table(["Program", "Attempt", "Its reader takes", "It takes"], differing)
    part.section += ["The theorem is of a family of readers. These classes of desync are inside or outside it:", ""]
    part.table(["Class", "The family", "Why"], CLASSES)
    return part


def shown(taken: Taken) -> str:
    words = [f"{method.decode('latin-1')}, {len(content)} bytes" for method, content in taken.messages]
    return "; ".join(words + ["error"] * taken.is_rejected) or "nothing"
