"""The cases in Chromium's HTTP cache: a page of the origin makes the requests by `fetch`."""
import json
import time
import uuid
from pathlib import Path

from caching import origin
from caching.cases import Case
from caching.outcomes import Answer
from common.browsers import Browser
from common.client import Response
from common.processes import Missing


def answers_of(keys: dict[str, Case], port: int, work: Path) -> dict[str, list[Answer]]:
    """What the page got in the steps of each case."""
    name = uuid.uuid4().hex
    plans = [
        [key, [{"send": [[field, origin.filled(value, "")] for field, value in step.send], "method": step.method,
                "query": step.query, "pause": step.pause} for step in case.steps]]
        for key, case in keys.items()
    ]
    page = Path(__file__).with_name("chromium.html").read_text("utf-8")
    page = page.replace("PLANS", json.dumps(plans).replace("<", "\\u003c")).replace("NAME", name)
    origin.RECORD.page = page.encode()
    with Browser("chromium", f"http://127.0.0.1:{port}/page/"):
        for _ in range(900):
            if name in origin.RECORD.reports:
                break
            time.sleep(0.2)
        else:
            raise Missing("Chromium gave no results in three minutes")
        time.sleep(1)
    return {
        key: [
            Answer(Response(status, [(name.lower(), value) for name, value in fields],
                            body.encode("latin-1", "replace")), took)
            for status, fields, body, took in given
        ]
        for key, given in origin.RECORD.reports[name]
    }
