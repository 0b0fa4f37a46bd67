"""The choices of libraries and servers, and ours. A choice is the place of an offer, or `None`; a text in parentheses
says why there is no choice."""
import json
from collections.abc import Callable
from dataclasses import asdict, dataclass
from pathlib import Path

from common import client, processes, products
from common.fields import section
from common.processes import PYTHON
from negotiation.cases import FIELDS, Case

PEERS = Path(__file__).with_name("peers")
PORT = 18130
# As many offers as a case may have.
MOST_OFFERS = 8

Choice = int | str | None


@dataclass
class Library:
    name: str
    choose: Callable[[list[Case], Path], list[Choice]]
    version: list[str]


def written(cases: list[Case], work: Path) -> Path:
    path = work / "cases.json"
    path.write_text(json.dumps([asdict(it) for it in cases]), "utf-8")
    return path


def by_node(cases: list[Case], work: Path) -> list[Choice]:
    return json.loads(processes.output(["node", PEERS / "negotiator.js", written(cases, work)]))


def by_python(name: str) -> Callable[[list[Case], Path], list[Choice]]:
    def choose(cases: list[Case], work: Path) -> list[Choice]:
        return json.loads(processes.output([PYTHON, PEERS / "by_python.py", name, written(cases, work)]))

    return choose


def by_perl(cases: list[Case], work: Path) -> list[Choice]:
    lines = ["\t".join([it.dimension, "1" if it.lines else "", ", ".join(it.lines).replace("\t", " "),
                        *(offer.replace("\t", " ") for offer in it.offers)]) for it in cases]
    text = "".join(line + "\n" for line in lines)
    found = processes.output(["perl", PEERS / "negotiate.pl"], text.encode("latin-1")).decode().split()
    return [None if it == "none" else int(it) for it in found]


def type_map(case: Case) -> str:
    """The offers of a case for Apache's mod_negotiation."""
    blocks = []
    for place, offer in enumerate(case.offers):
        block = [f"URI: v{place}", "Content-type: " + (offer if case.dimension == "accept" else "text/html")]
        if case.dimension == "encoding" and offer != "identity":
            block.append(f"Content-encoding: {offer}")
        if case.dimension == "language":
            block.append(f"Content-language: {offer}")
        blocks.append("\n".join(block) + "\n")
    return "\n".join(blocks)


def by_apache(cases: list[Case], work: Path) -> list[Choice]:
    maps = work / "maps"
    maps.mkdir()
    for place in range(MOST_OFFERS):
        (maps / f"v{place}").write_text(f"variant {place}\n")
    for number, case in enumerate(cases):
        (maps / f"{number}.var").write_text(type_map(case), "latin-1")
    processes.fill(PEERS / "apache.conf", work / "apache.conf", {"WORK": str(work), "PORT": str(PORT)})
    words = ["apache2", "-f", str(work / "apache.conf"), "-DFOREGROUND"]
    choices: list[Choice] = []
    with processes.server(words, PORT, "/v0", work / "apache.log"):
        for number, case in enumerate(cases):
            answer = client.ask(PORT, "GET", f"/{number}.var", [(FIELDS[case.dimension], it) for it in case.lines])
            choices.append(int(answer.body.split()[1]) if answer.status == 200
                           else None if answer.status == 406 else f"(fails) {answer.status}")
    return choices


def package(name: str) -> list[str]:
    return [PYTHON, "-c", f"from importlib.metadata import version; print(version('{name}'))"]


LIBRARIES = [
    Library("negotiator", by_node, ["node", "-p", "require('negotiator/package').version"]),
    Library("Werkzeug", by_python("werkzeug"), package("werkzeug")),
    Library("WebOb", by_python("webob"), package("webob")),
    Library("mimeparse", by_python("mimeparse"), package("python-mimeparse")),
    Library("HTTP::Negotiate", by_perl, ["perl", "-MHTTP::Negotiate", "-e", "print $HTTP::Negotiate::VERSION"]),
    Library("Apache mod_negotiation", by_apache, ["apache2", "-v"]),
]


def by_ours(cases: list[Case]) -> list[int | None]:
    """The choices of the library."""
    headers = products.library()
    calls = {"accept": headers.choose_type, "encoding": headers.choose_coding, "language": headers.choose_language}
    chosen = [calls[it.dimension](section((FIELDS[it.dimension], line) for line in it.lines), it.offers) for it in cases]
    return [None if offer is None else list(case.offers).index(offer) for case, offer in zip(cases, chosen)]
