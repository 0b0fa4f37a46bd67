"""Conditional requests and ranges: servers, libraries and the model of RFC 9110."""
import time
from dataclasses import dataclass, field

from common import processes
from common.part import Context, Part, code
from common.processes import Missing
from conditional import against_model, cases, ours, servers
from conditional.model import Answer, Request, joined, plain
from conditional.servers import Given

COUNT, EXAMPLES = 1600, 3
INTRODUCTION = """
Each server or library is asked for a representation, by {count} requests that are made by hand, from the tables of Go's
own tests, or at random. Its answer counts as *not permitted* if RFC 9110, sections 13 and 14,
permits other answers alone.
Where the RFC leaves a choice, as whether to answer a Range at all, each choice is permitted. `decide_preconditions`
answers the same requests by the peer's own entity tag and date. *Parts* are the 206 among the requests for which one is
permitted; *in another order* those of several parts that come otherwise than they were asked for (section 15.3.7.2:
SHOULD). Ours sends them [by position](../../crates/decide_preconditions/README.md#choices).
"""


@dataclass
class Score:
    """How a server and ours answered the same requests."""

    title: str
    asked: int = 0
    alike: int = 0
    wrong: int = 0
    own_wrong: int = 0
    parts: int = 0
    own_parts: int = 0
    possible: int = 0
    disordered: int = 0
    own_disordered: int = 0
    wrongs: dict[tuple[object, ...], list[tuple[Given, set[Answer]]]] = field(default_factory=dict)
    faults: list[str] = field(default_factory=list)


def size(lines: list[tuple[str, str]]) -> tuple[bool, int]:
    """By which the shortest request is found, rather one without an empty field."""
    return not all(value for _, value in lines), sum(len(name) + len(value) for name, value in lines)


def score(title: str, found: list[Given], now: int) -> Score:
    result = Score(title, asked=len(found))
    for given in found:
        facts = (given.case.method, given.lines, given.etag, given.modified, given.case.length)
        # (whether its date is a strong validator is the server's to know)
        requests = {strong: Request(*facts, strong, now) for strong in (False, True)}
        permitted = {strong: it.permitted() for strong, it in requests.items()}
        own, theirs = {strong: ours.answer(*facts, strong, now) for strong in (False, True)}, plain(given.answer)
        is_strong = theirs == own[True] != own[False]
        result.alike += theirs == own[is_strong]
        result.disordered += is_disordered(requests[is_strong], given.answer)
        result.own_disordered += is_disordered(requests[is_strong], own[is_strong])
        result.own_wrong += own[is_strong] not in permitted[is_strong]
        for strong, mine in own.items():
            if mine not in permitted[strong]:
                result.faults.append(f"{facts}, strong date {strong}: {mine}, permitted {permitted[strong]}")
        either = permitted[False] | permitted[True]
        if theirs not in either:
            result.wrong += 1
            names = tuple(sorted({name for name, _ in given.lines}))
            kind = (given.case.method, names, theirs[0], tuple(sorted({status for status, _ in either})))
            result.wrongs.setdefault(kind, []).append((given, either))
        if any(status == 206 for status, _ in permitted[is_strong]):
            result.possible += 1
            result.parts += theirs[0] == 206
            result.own_parts += own[is_strong][0] == 206
    return result


def is_disordered(request: Request, answer: Answer) -> bool:
    return answer[0] == 206 and len(answer[1]) > 1 and not request.is_in_order(answer[1])


def shown(answer: Answer) -> str:
    status, parts = answer
    text = ", ".join(f"{first}-{last}" for first, last in parts)
    return f"{status}{f' with {text}' if text else ''}"


def table_of_examples(part: Part, scores: list[Score]) -> None:
    """Of each server's most frequent wrong answers, by method, fields and statuses, the shortest request."""
    rows: list[list[object]] = []
    for it in scores:
        for wrongs in sorted(it.wrongs.values(), key=len, reverse=True)[:EXAMPLES]:
            given, permitted = min(wrongs, key=lambda wrong: size(wrong[0].case.lines))
            lines = "; ".join(f"{name}: {value}" for name, value in given.case.lines)
            tag = "no tag" if not given.etag else "weak tag" if given.etag.startswith("W/") else "strong tag"
            about = f"{tag}, {'no date' if given.modified is None else 'a date'}, {given.case.length} bytes"
            rows.append([it.title, len(wrongs), code(f"{given.case.method} {lines}"), about, shown(plain(given.answer)),
                         " or ".join(sorted(map(shown, permitted)))])
    part.section += [
        f"The {EXAMPLES} most frequent kinds of answers that aren't permitted, each with its shortest request. `{{S}}`",
        "is the representation's tag as a strong one, `{W}` as a weak one, `{D}` its date, `{D-1}` a second before it.",
        ""]
    part.table(["Server", "requests", "Request", "Representation", "Answer", "Permitted"], rows)


def hold_to_go(part: Part, now: int) -> None:
    """The answers of ours that Go's tables of tests have otherwise."""
    otherwise = 0
    for case in cases.of_go():
        etag = {"strong": '"v1-tag"', "weak": 'W/"v1-tag"'}.get(case.kind)
        lines = cases.filled_lines(case, etag, cases.MODIFIED)
        answer = ours.answer(case.method, lines, etag, cases.MODIFIED, case.length, True, now)
        status, parts = case.wanted or (0, None)
        if status and answer[0] != status or parts and answer[1] != joined(parts):
            otherwise += 1
            if answer not in Request(case.method, lines, etag, cases.MODIFIED, case.length, True, now).permitted():
                part.faults.append(f"{lines} of {case.length} bytes: Go wants {status} {parts}, ours {shown(answer)}")
    part.section += [f"Of the {sum(1 for _ in cases.of_go())} requests of Go's own tests, ours answers {otherwise}",
                     "otherwise, each as RFC 9110 permits.", ""]


def run(context: Context) -> Part:
    part = Part("Conditional requests and ranges")
    every = [*cases.of_go(), *cases.by_hand(), *cases.at_random(context.seed, COUNT)]
    now, scores = int(time.time()), []
    for server in servers.SERVERS:
        work = context.work / server.words[-1].strip("@").replace("/", "-") / str(servers.SERVERS.index(server))
        work.mkdir(parents=True)
        work.chmod(0o777)
        try:
            scores.append(score(processes.titled(server.name, server.version), servers.answers_of(server, every, work),
                                now))
            print(f"conditional: {scores[-1].title}: {scores[-1].asked} asked, {scores[-1].wrong} not permitted, ours "
                  f"{scores[-1].own_wrong}", flush=True)
        except Missing as missing:
            part.missing.append(f"{server.name}: {missing}")
    part.section += INTRODUCTION.strip().format(count=f"{len(every):,}").split("\n") + [""]
    part.table(["Server or library", "asked", "as ours", "not permitted", "not permitted: ours", "parts",
                "parts: ours", "in another order", "in another order: ours"], [
        [it.title, it.asked, it.alike, it.wrong, it.own_wrong, f"{it.parts} of {it.possible}",
         f"{it.own_parts} of {it.possible}", it.disordered, it.own_disordered]
        for it in scores])
    table_of_examples(part, scores)
    part.want("answers of ours that RFC 9110 doesn't permit", sum(it.own_wrong for it in scores), 0)
    part.counts.append(f"answers of ours with parts in another order (SHOULD): {sum(it.own_disordered for it in scores)}")
    part.faults += [fault for it in scores for fault in it.faults[:5]]
    hold_to_go(part, now)
    comparison = against_model.compare(context.seed, context.inputs)
    part.section += [f"`decide_preconditions` beside a model of RFC 9110, on {context.inputs:,} random requests:", ""]
    part.table(["Calls", "as the model", "otherwise", "malformed, without a rule"], comparison.rows())
    part.want(f"differences from the model on {context.inputs:,} inputs", comparison.differences, 0)
    part.faults += comparison.faults()
    return part
