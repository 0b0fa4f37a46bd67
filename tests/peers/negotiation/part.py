"""Content negotiation: libraries, Apache and the model of RFC 9110."""
import collections
import json
from dataclasses import asdict, dataclass, field

from common import processes
from common.comparison import Comparison
from common.part import Context, Part, code
from common.processes import Missing
from negotiation import libraries, model
from negotiation.cases import FIELDS, Case, cases
from negotiation.libraries import Choice

COUNT = 5_000
INTRODUCTION = """
Each library chooses among the same offers by the same {count:,} random fields, as `decide_negotiation` does. A choice
is *wrong* if no reading of RFC 9110, section 12.5, gives the chosen offer the greatest quality. Three kinds count
apart: an offer although none is acceptable, which a server may send if it disregards the field (section 12.4.1); for
languages, where the model is basic filtering (RFC 4647, section 3.3.1), a choice by lookup (section 3.4), as `en` for
`en-GB`; and fields that break their grammar, for which there is no rule.
"""


@dataclass
class Score:
    title: str
    dimension: str
    tally: collections.Counter[str] = field(default_factory=collections.Counter)
    wrong: list[tuple[Case, Choice]] = field(default_factory=list)


def judged(case: Case, choice: Choice, found: list[set[int]] | None) -> str:
    if isinstance(choice, str):
        return "fails"
    if found is None:
        return "malformed"
    best = model.best(found)
    if choice in best:
        return "right"
    if case.dimension == "language" and choice is not None and model.is_lookup(case.lines, case.offers[choice]):
        return "lookup"
    return "disregards" if best == {None} else "wrong"


def score(title: str, every: list[Case], choices: list[Choice], own: list[int | None]) -> list[Score]:
    scores = {it: Score(title, it) for it in FIELDS}
    for case, choice, mine in zip(every, choices, own):
        if choice == "(not asked)":
            continue
        result = scores[case.dimension]
        verdict = judged(case, choice, model.qualities(case.dimension, case.lines, case.offers, is_loose=True))
        result.tally["asked"] += 1
        result.tally["as ours"] += choice == mine
        result.tally[verdict] += 1
        if verdict == "wrong":
            result.wrong.append((case, choice))
    return [it for it in scores.values() if it.tally]


def table_of_examples(part: Part, scores: list[Score]) -> None:
    """The shortest wrong choice of each library by a field, and by the lack of one."""
    rows: list[list[object]] = []
    for it in scores:
        examples = sorted(it.wrong, key=lambda wrong: (not wrong[0].lines, len(str(wrong[0]))))
        without = [wrong for wrong in examples if not wrong[0].lines]
        for case, choice in [*examples[: len(examples) > len(without)], *without[:1]]:
            found = model.qualities(case.dimension, case.lines, case.offers, is_loose=True) or []
            right = ["none" if place is None else case.offers[place] for place in sorted(model.best(found), key=str)]
            chosen = "none" if choice is None else case.offers[int(choice)]
            lines = "; ".join(f"{FIELDS[case.dimension]}: {line}" for line in case.lines) or "no field"
            rows.append([it.title, code(lines), ", ".join(map(code, case.offers)), code(chosen),
                         " or ".join(map(code, right))])
    part.section += ["The shortest wrong choices of each:", ""]
    part.table(["Library", "Field", "Offers", "Choice", "Right"], rows)


def against_model(seed: int, count: int) -> Comparison:
    comparison = Comparison()
    every = list(cases(seed, count))
    for case, choice in zip(every, libraries.by_ours(every)):
        found = model.qualities(case.dimension, case.lines, case.offers)
        comparison.add(f"{case.dimension}.choose", None if found is None else model.best(found), choice,
                       lambda: json.dumps(asdict(case)))
    return comparison


def run(context: Context) -> Part:
    part = Part("Content negotiation")
    every = list(cases(context.seed, COUNT))
    own = libraries.by_ours(every)
    scores = score("ours", every, [*own], own)
    for number, library in enumerate(libraries.LIBRARIES):
        work = context.work / str(number)
        work.mkdir(parents=True)
        work.chmod(0o755)
        try:
            scores += score(processes.titled(library.name, library.version), every, library.choose(every, work), own)
        except Missing as missing:
            part.missing.append(f"{library.name}: {missing}")
    part.section += INTRODUCTION.strip().format(count=COUNT).split("\n") + [""]
    kinds = {"asked": "asked", "as ours": "as ours", "right": "right", "wrong": "wrong",
             "disregards": "none acceptable, chosen all the same", "lookup": "by lookup",
             "malformed": "malformed, without a rule", "fails": "fails"}
    part.table(["Library", "Field", *kinds.values()],
               [[it.title, FIELDS[it.dimension], *(it.tally[kind] for kind in kinds)] for it in scores])
    table_of_examples(part, scores)
    comparison = against_model(context.seed, context.inputs)
    part.section += [f"`decide_negotiation` beside a model of RFC 9110, on {context.inputs:,} random fields:", ""]
    part.table(["Call", "as the model", "otherwise", "malformed, without a rule"], comparison.rows())
    part.want(f"differences from the model on {context.inputs:,} inputs", comparison.differences, 0)
    part.faults += comparison.faults()
    return part
