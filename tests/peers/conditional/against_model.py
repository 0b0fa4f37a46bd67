"""The library beside the model of RFC 9110 on random requests."""
import json
import random

from common.comparison import Comparison
from conditional import cases, ours
from conditional.model import Request

NOW = 1795657000  # 25 Nov 2026


def compare(seed: int, count: int) -> Comparison:
    comparison = Comparison()
    draw = random.Random(seed)
    for case in cases.at_random(seed, count):
        etag = None if case.kind in ("none", "bare") else draw.choice(cases.OWN_TAGS)
        etag = f"W/{etag}" if case.kind == "weak" else etag
        # (also dates after now, as of a file whose clock was wrong)
        date = draw.choice([cases.MODIFIED] * 6 + [NOW, NOW + 1, 2 * NOW])
        modified = None if case.kind in ("nodate", "bare") else date
        lines, is_date_strong = cases.filled_lines(case, etag, modified), draw.random() < 0.5
        facts = (case.method, lines, etag, modified, case.length, is_date_strong, NOW, draw.random() < 0.95)
        request = Request(*facts)
        selected = ours.answer(*facts)
        answers = {"evaluate, select": (selected, None), "respond": ours.response(*facts),
                   "Resource.answer": ours.of_resource(*facts)}
        for name, found in answers.items():
            if found is None:
                continue
            answer, sent = found
            shown = lambda: json.dumps(facts)  # noqa: E731
            # (ours has its parts in the order of the permitted ones, by position)
            comparison.add(name, request.wanted(), answer, shown)
            if name != "evaluate, select" and request.is_read:
                comparison.add(f"{name}: Last-Modified", request.dates_sent(answer[0]), sent, shown)
    return comparison
