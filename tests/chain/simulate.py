"""Runs random requests over random chains of real parts, and holds all that was exchanged to the RFCs.

A run is a list of episodes, each with a chain, clients, an origin server and random numbers of its own, so that it can
be repeated by itself with --only.
"""
import argparse
import multiprocessing
import os
import random
import shutil
import signal
import sys
import tempfile
import time
from collections import Counter
from collections.abc import Iterable, Iterator
from dataclasses import dataclass, field
from functools import partial
from pathlib import Path

import cache
from checker import Checker, Found, Hop, Way, check_ways
from common import processes
from messages import Message
from origins import Origin, make_files
from parts import GATE, PATIENCE, Process, World, await_port, tap
from traffic import JUMPS, Client, Request, Traffic, send

FIRST_PORT = 18600
BEGIN = 1795657000  # 25 Nov 2026
LENGTH = 100
TRUNKS = [[GATE, "shared", GATE]] * 4 + [[GATE]] * 2 + [[GATE, "shared", "shared", GATE]] * 2 + [
    ["shared", GATE, "shared", GATE], ["shared", GATE], [GATE, "shared"], [GATE, GATE], ["shared", "shared"]]
GATES = 3
# Lines that are shown of the violations of an episode.
SHOWN = 200


@dataclass
class Result:
    episode: str
    requests: int
    chain: str
    lines: list[str] = field(default_factory=list)
    kinds: Counter = field(default_factory=Counter)
    whole: Counter = field(default_factory=Counter)
    is_cut: bool = False


class Bench:
    """The ports and the lasting processes of one worker: gateways, nginx, and socat before the example."""

    def __init__(self, number: int, work: Path) -> None:
        self.base, self.work = FIRST_PORT + 40 * number, work / str(number)
        self.files, self.curls = self.work / "files", self.work / "curl"
        self.files.mkdir(parents=True)
        self.curls.mkdir()
        self.notes, self.nginx = self.base, self.base + 1
        here = Path(__file__).parent
        processes.fill(here / "nginx.conf", self.work / "nginx.conf",
                       {"WORK": str(self.work), "PORT": str(self.nginx)})
        socat = ["socat", f"TCP-LISTEN:{self.notes},bind=127.0.0.1,reuseaddr,fork",
                 f"EXEC:{os.environ['NOTES_PROGRAM']}"]
        gates = [([os.environ["GATE"], "--name", f"g{it}", f"127.0.0.1:{self.gate(it) + 1}"],
                  {"PORT": str(self.gate(it))}) for it in range(GATES)]
        nginx = ["nginx", "-c", str(self.work / "nginx.conf"), "-e", str(self.work / "nginx.error")]
        self.processes = [Process(*it, self.work / "log") for it in [(socat, {}), (nginx, {}), *gates]]
        for port in (self.notes, self.nginx, *map(self.gate, range(GATES))):
            await_port(port)

    def gate(self, number: int) -> int:
        """The port of a gateway. It connects to the next port."""
        return self.base + 4 + 2 * number

    def end(self) -> None:
        for it in self.processes:
            it.end()
        for it in self.processes:
            it.process.wait(60)


class Episode:
    """A chain, its clients, and their requests."""

    def __init__(self, bench: Bench, seed: int, number: int, origin: str, faults: set[str]) -> None:
        self.name = f"{origin}/{number}"
        self.draw = random.Random(f"{seed}/{self.name}")
        self.bench, self.faults = bench, faults
        self.world = World(BEGIN + self.draw.randrange(1000))
        self.hops: list[Hop] = []
        self.ways: list[Way] = []
        self.clients = [Client(it, f"c{it}-{self.draw.getrandbits(32):08x}")
                        for it in range(self.draw.choice([2, 3, 4]))]
        self.set_origin(origin)
        self.set_chain()

    def set_origin(self, kind: str) -> None:
        draw, bench, is_notes = random.Random(self.draw.random()), self.bench, kind == "notes"
        port = bench.notes if is_notes else bench.nginx
        targets = ["/notes", "/notes/1", "/notes/2", "/nothing"]
        if not is_notes:
            (bench.work / "users").write_text("".join(
                f"c{it.number}:{{PLAIN}}pw-{it.mark}\n" for it in self.clients), "utf-8")
            files = make_files(bench.files, draw, self.world.now)
            targets = self.draw.sample(files[2:8], 3) + self.draw.sample([*files[:2], *files[8:]], 4) + ["/none.txt"]
        self.traffic = Traffic(self.draw, self.clients, targets, is_notes, self.world.now)
        self.link = 50
        self.origin = Origin(self.world, self.link, port, draw, is_notes, None if is_notes else bench.files)

    def set_chain(self) -> None:
        """Each link has a number, and a recorder that listens where the hop before it connects to."""
        ports = iter(range(self.bench.base + 12, self.bench.base + 40))
        trunk, gates = self.draw.choice(TRUNKS), iter(range(GATES))
        entry = start = next(ports)
        for place, kind in enumerate(trunk):
            if kind == GATE and "only_passes_bytes" in self.faults:
                name, enters, onward = f"g{next(gates)}", next(ports), next(ports)
                self.world.listen(enters, tap(self.world, 100 + place, onward))
            elif kind == GATE:
                number = next(gates)
                name, enters = f"g{number}", self.bench.gate(number)
                onward = enters + 1
            else:
                name, enters, onward = f"s{place}", next(ports), next(ports)
                self.cache(name, True, enters, onward)
            self.hops.append(Hop(name, kind, place, place + 1 if place + 1 < len(trunk) else self.link))
            self.world.listen(entry, tap(self.world, place, enters, partial(self.wait, place)))
            entry = onward
        self.world.listen(entry, self.origin.serve)
        self.entries = {}
        trunk_hops = list(self.hops)
        for client in self.clients:
            self.entries[client.number] = (start, 0, trunk_hops)
            if self.draw.random() < 0.35:
                link, name, port, enters = 10 + client.number, f"p{client.number}", next(ports), next(ports)
                self.cache(name, False, enters, start)
                self.hops.append(Hop(name, "private", link, 0))
                self.world.listen(port, tap(self.world, link, enters, partial(self.wait, link)))
                self.entries[client.number] = (port, link, [self.hops[-1], *trunk_hops])

    def wait(self, link: int, request: Message) -> None:
        """Lets time pass before a request of a client that sends to this link."""
        number = int((request.lines("x-mark") or ["c0"])[0][1:].partition("-")[0])
        if self.entries[number][1] == link:
            self.world.rest()
            if self.draw.random() < 0.3:
                self.world.now += self.draw.choice(JUMPS)

    def cache(self, name: str, is_shared: bool, port: int, onward: int) -> None:
        faults = self.faults if is_shared else set()
        self.world.listen(port, cache.Cache(self.world, name, is_shared, onward, faults).serve)

    @property
    def chain(self) -> str:
        return "; ".join(f"c{number}: {', '.join(it.name for it in hops)}" for number, (*_, hops)
                         in self.entries.items())

    def warm(self) -> None:
        """The first notes, so that there is something to read."""
        if self.traffic.is_notes:
            made = [Request(0, f"{self.clients[0].mark}-r{-it}", "POST", "/notes", "a.test", [
                ("X-Mark", f"{self.clients[0].mark}-r{-it}"), ("Content-Type", "application/json")],
                b'{"text":"the first one"}') for it in (1, 2, 3)]
            self.batch(made)

    def batch(self, requests: list[Request]) -> None:
        port, link, hops = self.entries[requests[0].client]
        before = len(self.world.record)
        sent = send(requests, port, self.bench.curls)
        self.world.rest()
        exchanges = {it.mark: it for it in self.world.record[before:] if it.link == link}
        for request, done in zip(requests, sent, strict=False):
            exchange = exchanges.get(request.mark)
            if exchange:
                self.traffic.see(request, exchange.response)
                self.ways.append(Way(exchange, hops, done.status, done.content, self.clients[request.client].mark))

    def run(self, length: int) -> Result:
        try:
            self.warm()
            while self.traffic.count < length and not self.origin.is_lost:
                client = self.draw.choice(self.clients)
                self.batch([self.traffic.request(client) for _ in range(self.draw.choice([2, 6, 10, 14]))])
        finally:
            self.world.end()
        return self.judge()

    def judge(self) -> Result:
        checker = Checker(self.hops, self.world.record, self.link)
        checker.check()
        found, whole = check_ways(self.ways, self.world.record, self.link)
        result = Result(self.name, len(self.ways), self.chain, kinds=checker.kinds, whole=whole,
                        is_cut=self.origin.is_lost)
        for it in checker.found + found:
            result.lines += self.told(it)
        return result

    def told(self, found: Found) -> list[str]:
        """A violation, and all exchanges of the request that it is about and of those from which it got an answer."""
        lines = [f"VIOLATION in {self.name}: {found.hop}: {found.text}", f"  chain: {self.chain}"]
        numbers = set(found.exchange.response.lines("x-answer")) if found.exchange.response else set()
        for it in sorted(self.world.record, key=lambda it: it.order):
            own = set(it.response.lines("x-answer")) if it.response else set()
            if it.mark == found.exchange.mark or it.mark in found.text or own & numbers:
                lines.append(f"  link {it.link}, event {it.order} to {it.ended}, time {it.asked - BEGIN} to "
                             f"{it.received - BEGIN}:")
                lines += [f"    > {text}" for text in str(it.request).split("\n") if text]
                lines += [f"    < {text}" for text in str(it.response).split("\n") if text]
        return lines


@dataclass
class Task:
    """An episode, with a part that is broken on purpose if a fault is named."""

    origin: str
    number: int
    fault: str = ""


def work(number: int, folder: Path, seed: int, todo, done, found) -> None:
    """Runs episodes until there are no more. Those with a fault that was found before are left out."""
    signal.signal(signal.SIGTERM, lambda *_: sys.exit(1))
    bench = Bench(number, folder)
    try:
        while (it := todo.get()) is not None:
            place = FAULTS.index(it.fault) if it.fault else None
            result = None
            if place is None or not found[place]:
                result = Episode(bench, seed, it.number, it.origin, {it.fault} - {""}).run(LENGTH)
                if place is not None and result.lines:
                    found[place] = True
            done.put((it, result))
    except BaseException as error:  # (the parent must hear of it)
        done.put((None, RuntimeError(f"worker {number}: {error!r}")))
        raise
    finally:
        bench.end()


FAULTS = list(cache.FAULTS)
# Episodes of each origin server in which a fault must be found.
TRIES = 16


def tasks(options: argparse.Namespace) -> list[Task]:
    if options.only:
        origin, _, number = options.only.partition("/")
        return [Task(origin, int(number), options.fault or "")]
    faults = FAULTS if options.faults else [options.fault or ""]
    count = TRIES if options.faults else -(-options.requests // LENGTH)
    return [Task(origin, it, fault) for it in range(count) for fault in faults
            for origin in options.origin or ["notes", "nginx"]]


def run(options: argparse.Namespace, folder: Path) -> Iterator[tuple[Task, Result]]:
    """The results of the episodes, as they come."""
    todo, done = multiprocessing.Queue(), multiprocessing.Queue()
    found = multiprocessing.Array("b", len(FAULTS))
    planned = tasks(options)
    jobs = min(options.jobs, len(planned))
    for it in [*planned, *[None] * jobs]:
        todo.put(it)
    workers = [multiprocessing.Process(target=work, args=(it, folder, options.seed, todo, done, found))
               for it in range(jobs)]
    for it in workers:
        it.start()
    try:
        for _ in planned:
            task, result = done.get(timeout=3 * PATIENCE)
            if isinstance(result, BaseException):
                raise result
            if result:
                yield task, result
    finally:
        for it in workers:
            if not todo.empty():
                it.terminate()
            it.join(20)


def violations(results: Iterable[Result]) -> Counter[str]:
    return Counter(line.split(": ", 1)[1] for it in results for line in it.lines if line.startswith("VIOLATION"))


def report_faults(results: list[tuple[Task, Result]]) -> bool:
    """Prints how each fault is seen. Returns whether each is."""
    missed = 0
    for fault in FAULTS:
        texts = violations(result for task, result in results if task.fault == fault)
        missed += not texts
        seen = f"found: {texts.most_common(1)[0][0]}" if texts else "NOT FOUND"
        print(f"{fault} ({cache.FAULTS[fault]}): {seen[:150]}")
    print(f"{len(FAULTS)} faults, {missed} not found")
    return not missed


def report(results: list[Result], options: argparse.Namespace, seconds: float) -> bool:
    """Prints what was seen. Returns whether all of it is permitted."""
    kinds, whole = sum((it.kinds for it in results), Counter()), sum((it.whole for it in results), Counter())
    for title, counts in (("at each hop", kinds), ("on the whole way", whole)):
        print(title + ": " + ", ".join(f"{name} {count}" for name, count in sorted(counts.items())))
    broken, texts = [it for it in results if it.lines], violations(results)
    for text, count in texts.most_common(12):
        print(f"{count} times: {text[:150]}")
    print(f"seed {options.seed}, {len(results)} episodes, {sum(it.requests for it in results)} requests, "
          f"{sum(it.is_cut for it in results)} cut short, {sum(texts.values())} violations in {len(broken)} episodes, "
          f"{seconds:.0f} seconds")
    is_idle = not whole["stored"] and not options.only
    if is_idle:
        print("no response came from a store, so this shows nothing about caches")
    return not broken and not is_idle


def main() -> int:
    parser = argparse.ArgumentParser(description=__doc__.split("\n")[0])
    parser.add_argument("--requests", type=int, default=10_000, help="for each origin server")
    parser.add_argument("--seed", type=int, default=1)
    parser.add_argument("--origin", action="append", choices=["notes", "nginx"])
    parser.add_argument("--only", help="one episode, as notes/7")
    parser.add_argument("--fault", choices=FAULTS, default="", help="break a part on purpose")
    parser.add_argument("--faults", action="store_true", help="run each fault until it is found")
    parser.add_argument("--jobs", type=int, default=min(4, os.cpu_count() or 1))
    options = parser.parse_args()
    signal.signal(signal.SIGTERM, lambda *_: sys.exit(1))
    began = time.monotonic()
    folder = Path(tempfile.mkdtemp(prefix="chain-", dir="/dev/shm" if Path("/dev/shm").is_dir() else None))
    folder.chmod(0o755)
    results = []
    try:
        for task, result in run(options, folder):
            results.append((task, result))
            if result.lines:
                print("\n".join(result.lines[:1 if options.faults else SHOWN]), flush=True)
    finally:
        shutil.rmtree(folder, ignore_errors=True)
    if options.faults:
        return 0 if report_faults(results) else 1
    return 0 if report([it for _, it in results], options, time.monotonic() - began) else 1


if __name__ == "__main__":
    sys.exit(main())
