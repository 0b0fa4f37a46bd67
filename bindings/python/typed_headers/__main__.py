"""The command `typed-headers`: see `typed-headers --help`."""

import argparse
import json
import os
import sys
from collections import Counter, deque
from concurrent.futures import Future, ProcessPoolExecutor
from datetime import datetime
from typing import Callable, Deque, Iterable, Iterator, List, Optional, Sequence, Tuple

from . import _library
from ._version import VERSION
from .audit import FINDINGS, Counts, Exchange, count_partition, map_partition, read_exchanges
from .caching import Decision
from .conditions import Precondition
from .errors import HeaderError
from .headers import canonical_section
from .inspection import CacheReport, Report, inspect, report_data
from .values import date

DECISIONS = {
    Decision.SERVE: "serves it",
    Decision.SERVE_AND_REVALIDATE: "serves it though it is stale, and revalidates it after that",
    Decision.SERVE_STALE: "serves it though it is stale, as the request allows",
    Decision.REVALIDATE: "asks the origin first whether it is still good",
    Decision.REVALIDATE_OR_SERVE: "asks the origin first whether it is still good, and serves it if the origin fails",
    Decision.UNAVAILABLE: "answers 504, as the request forbids to ask the origin",
    Decision.FETCH: "asks the origin anew",
}
PRECONDITIONS = {
    Precondition.PERFORM: "performs the method",
    Precondition.NOT_MODIFIED: "answers 304",
    Precondition.FAILED: "answers 412",
}
COLOURS = {"bold": "1", "good": "32", "bad": "31", "dim": "2"}


class Printer:
    """Prints a report for people. Colours are those of a terminal."""

    def __init__(self, has_colours: bool) -> None:
        self.has_colours = has_colours

    def paint(self, colour: str, text: str) -> str:
        return f"\033[{COLOURS[colour]}m{text}\033[0m" if self.has_colours else text

    def title(self, text: str) -> None:
        print(f"\n{self.paint('bold', text)}")

    def table(self, rows: Sequence[Sequence[str]]) -> None:
        width = min(max((len(row[0]) for row in rows), default=0), 34)
        for name, text, *colour in rows:
            print(f"  {name:<{width}}  {self.paint(colour[0], text) if colour else text}")

    def report(self, it: Report) -> None:
        print(self.paint("bold", shown(it.head.start) or "Fields without a start line, taken as those of a 200"))
        self.title("Fields")
        self.table(field_rows(it))
        if it.browser_cache or it.shared_cache:
            self.title("Caches")
            self.table(cache_rows("browser", it.browser_cache) + cache_rows("shared", it.shared_cache))
        if it.cors:
            self.title("Scripts of other origins")
            self.table(cors_rows(it))
        if it.ranges or it.selection:
            self.title("Ranges")
            self.table([(name, shown(line)) for name, line in it.ranges] + selection_rows(it))
        if it.validators:
            self.title("Validators")
            self.table(validator_rows(it))
        if it.notes:
            self.title("Not judged")
            for note in it.notes:
                print(f"  {self.paint('bad', shown(note))}")


def shown(text: str) -> str:
    """The text without bytes that would steer a terminal."""
    return "".join(it if it.isprintable() else f"\\x{ord(it):02x}" for it in text)


def field_rows(it: Report) -> List[Sequence[str]]:
    rows: List[Sequence[str]] = [
        (f"line {number}", f"is no field (RFC 9112, section 5): {shown(line)}", "bad") for number, line in it.head.wrong
    ]
    for field in it.fields:
        if field.error is not None:
            rows.append((shown(field.name), f"rejected: {shown(field.error)}", "bad"))
            continue
        for number, line in enumerate(field.canonical or ()):
            name = shown(field.name) if number == 0 else ""
            rows.append((name, shown(line), "good") if field.is_known else (name, f"{shown(line)}", "dim"))
    return rows


def seconds(number: int) -> str:
    """A number of seconds, and about how long that is."""
    for size, unit in ((86400, "days"), (3600, "hours"), (60, "minutes")):
        if number >= 2 * size:
            return f"{number} seconds ({number // size} {unit})"
    return f"{number} second{'' if number == 1 else 's'}"


def cache_rows(name: str, cache: Optional[CacheReport]) -> List[Sequence[str]]:
    if cache is None:
        return [(name, "not judged", "bad")]
    if not cache.may_store:
        return [(name, "may not store it", "bad")]
    if cache.lifetime is None:
        fresh = "fresh for as long as the cache guesses, as the origin doesn't say (RFC 9111, section 4.2.2)"
    else:
        fresh = f"fresh for {seconds(cache.lifetime)}"
    return [
        (name, "may store it", "good"),
        ("", f"{fresh}; it is {seconds(cache.age)} old"),
        ("", f"asked again now, the cache {DECISIONS[cache.decision]}"),
    ]


def cors_rows(it: Report) -> List[Sequence[str]]:
    cors = it.cors
    assert cors is not None, "the caller has looked"
    if cors.allow_origin is None:
        return [("may read it", "none", "bad")]
    rows: List[Sequence[str]] = [("may read it", shown(cors.allow_origin), "good")]
    if cors.allow_credentials is not None:
        rows.append(("with credentials", "no, as any origin may" if cors.allow_origin == "*" else "yes"))
    parts = (
        ("may read the fields", cors.expose_headers),
        ("may use the methods", cors.allow_methods),
        ("may send the fields", cors.allow_headers),
        ("preflight kept for", cors.max_age and seconds(int(cors.max_age))),
    )
    return rows + [(name, shown(text)) for name, text in parts if text is not None]


def selection_rows(it: Report) -> List[Sequence[str]]:
    if it.selection is None:
        return []
    parts = ", ".join(f"{part.first}-{part.last}" for part in it.selection.ranges)
    return [("the request gets", f"{it.selection.status} {parts}".strip())]


def validator_rows(it: Report) -> List[Sequence[str]]:
    given = it.validators
    assert given is not None, "the caller has looked"
    rows: List[Sequence[str]] = []
    if given.etag is not None:
        rows.append(("entity tag", f"{shown(given.etag)}, {'weak' if given.is_weak else 'strong'}", "good"))
    if given.last_modified is not None:
        rows.append(("last modified", f"{given.last_modified:%Y-%m-%d %H:%M:%S} UTC", "good"))
    rows += [("asks again with", f"{name}: {shown(value)}") for name, value in given.fields]
    if it.precondition is not None:
        rows.append(("to this request the server", PRECONDITIONS[it.precondition]))
    return rows or [("none", "a client can't ask whether it is still good", "bad")]


def as_json(it: Report) -> str:
    return json.dumps(report_data(it), indent=2)


#: How many exchanges a process is handed at a time, and how many such batches wait for each process.
BATCH, WAITING = 500, 4
Judged = Tuple[Counts, str]


def judged(batches: Iterable[List[Exchange]], judge: Callable[[List[Exchange]], Judged], jobs: int) -> Iterator[Judged]:
    """What is found in each batch, in their order, by this many processes."""
    if jobs == 1:
        yield from map(judge, batches)
        return
    with ProcessPoolExecutor(jobs) as pool:
        waiting: Deque["Future[Judged]"] = deque()
        for batch in batches:
            waiting.append(pool.submit(judge, batch))
            if len(waiting) == jobs * WAITING:
                yield waiting.popleft().result()
        while waiting:
            yield waiting.popleft().result()


def counted(batch: List[Exchange]) -> Judged:
    return count_partition(batch), ""


def printed(batch: List[Exchange]) -> Judged:
    """Counts of findings, and a line of JSON for each exchange."""
    found = map_partition(batch)
    counts = Counts(len(found), Counter(name for it in found for name in it["findings"]))
    return counts, "".join(json.dumps(it) + "\n" for it in found)


def batches_of(names: Sequence[str], failures: List[str]) -> Iterator[List[Exchange]]:
    """The exchanges of files, in batches. A file that can't be read to its end adds to the failures."""
    for name in names:
        batch: List[Exchange] = []
        try:
            with open(name, "rb") if name != "-" else open(sys.stdin.fileno(), "rb", closefd=False) as file:
                for exchange in read_exchanges(file):
                    batch.append(exchange)
                    if len(batch) == BATCH:
                        yield batch
                        batch = []
        except (HeaderError, OSError) as error:
            failures.append(f"{name}: {error}")
        if batch:
            yield batch


def table(counts: Counts) -> None:
    print(f"{counts.responses:>12,}  responses")
    for name, meaning in FINDINGS.items():
        count = counts.findings[name]
        share = f"{100 * count / counts.responses:5.1f} %" if counts.responses else ""
        print(f"{count:>12,}  {share:>7}  {name}: {meaning}")
    for name, count in counts.malformed.most_common(20):
        print(f"{count:>12,}           malformed {shown(name)}")


def audit(names: Sequence[str], prints_each: bool, jobs: int) -> int:
    counts = Counts()
    failures: List[str] = []
    for more, lines in judged(batches_of(names, failures), printed if prints_each else counted, jobs):
        counts.add(more)
        sys.stdout.write(lines)
        if sys.stderr.isatty():
            print(f"\r{counts.responses:,} responses", end="", file=sys.stderr, flush=True)
    if sys.stderr.isatty():
        print(file=sys.stderr)
    if not prints_each:
        table(counts)
    for failure in failures:
        print(f"typed-headers: {shown(failure)}", file=sys.stderr)
    return 2 if failures else 1 if counts.findings["malformed_line"] or counts.findings["malformed_field"] else 0


def time_of(text: str) -> datetime:
    try:
        return date(text)
    except HeaderError as error:
        raise argparse.ArgumentTypeError(str(error)) from None


def length_of(text: str) -> int:
    try:
        return _library.to_number(int(text), "length")
    except ValueError as error:
        raise argparse.ArgumentTypeError(str(error)) from None


def jobs_of(text: str) -> int:
    number = length_of(text)
    if not 1 <= number <= 1024:
        raise argparse.ArgumentTypeError("a number of processes from 1 to 1024 is wanted")
    return number


def parser() -> argparse.ArgumentParser:
    words = argparse.ArgumentParser(prog="typed-headers", description="Judges header fields of HTTP messages.")
    words.add_argument("--version", action="version", version=f"%(prog)s {VERSION} (library {_library.version()})")
    commands = words.add_subparsers(dest="command", required=True, metavar="COMMAND")
    look = commands.add_parser(
        "inspect",
        help="explain a response's or a request's head",
        description="Reads a head as `curl -si URL` prints it, or both heads as `curl -sv URL` prints them, and shows "
        "each field with its canonical value or why it is rejected, what caches may do with the response, what scripts "
        "of other origins may read, ranges, and validators. The status is 0 if no field is rejected, 1 if one is, "
        "and 2 if there is no head.",
    )
    look.add_argument("file", nargs="?", metavar="FILE", help="where the head is, instead of standard input")
    look.add_argument("--json", action="store_true", help="print JSON")
    look.add_argument("--colour", choices=("auto", "always", "never"), default="auto", help="use colours")
    look.add_argument("--received", type=time_of, metavar="DATE", help="when the response came, as an HTTP date")
    look.add_argument(
        "--length", type=length_of, metavar="BYTES", help="the length of what a request for ranges selects from"
    )
    plain = commands.add_parser(
        "canon",
        help="print the canonical header section",
        description="Reads a header section and prints each field in its canonical form. A name whose lines are "
        "rejected is printed as `! NAME`. The status is 0 if no name is, 1 if one is, and 2 if a line is no field.",
    )
    plain.add_argument("file", nargs="?", metavar="FILE", help="where the section is, instead of standard input")
    many = commands.add_parser(
        "audit",
        help="judge the responses of WARC and HAR files",
        description="Reads WARC and HAR files, and what `curl -i` prints, each also compressed by gzip, and judges each "
        "response as inspect does: counts of what was found, or a line of JSON for each response. The status is 0 if no "
        "field is rejected, 1 if one is, and 2 if a file can't be read to its end; the others are judged all the same.",
    )
    many.add_argument("files", nargs="+", metavar="FILE", help="a file, or - for standard input")
    many.add_argument("--json", action="store_true", help="print a line of JSON for each response")
    many.add_argument("--jobs", type=jobs_of, default=os.cpu_count() or 1, metavar="N", help="how many processes judge")
    return words


def read(name: Optional[str]) -> bytes:
    if name is None:
        return sys.stdin.buffer.read()
    with open(name, "rb") as file:
        return file.read()


def main(words: Optional[Sequence[str]] = None) -> int:
    """Runs the command, and returns its status."""
    given = parser().parse_args(words)
    if given.command == "audit":
        return audit(given.files, given.json, given.jobs)
    try:
        text = read(given.file)
        if given.command == "canon":
            found = canonical_section(text)
            sys.stdout.buffer.write(found.encode("latin-1"))
            return 1 if any(line.startswith("! ") for line in found.split("\n")) else 0
        report = inspect(text, received=given.received, length=given.length)
    except (HeaderError, OSError) as error:
        print(f"typed-headers: {shown(str(error))}", file=sys.stderr)
        return 2
    if given.json:
        print(as_json(report))
    else:
        is_terminal = sys.stdout.isatty() and "NO_COLOR" not in os.environ
        Printer(given.colour == "always" or given.colour == "auto" and is_terminal).report(report)
    return 0 if report.is_valid else 1


def run() -> int:
    """Runs the command. A reader that ends early ends it in silence."""
    try:
        status = main()
        sys.stdout.flush()
        return status
    except BrokenPipeError:
        os.dup2(os.open(os.devnull, os.O_WRONLY), sys.stdout.fileno())
        return 141


if __name__ == "__main__":
    sys.exit(run())
