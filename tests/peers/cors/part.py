"""CORS: Chromium, Firefox and two models."""
import asyncio

from common.browsers import version
from common.part import Context, Part
from common.processes import Missing
from cors import against_model, elements, pairs, scenarios
from cors.pairs import Findings

PLAIN, REDIRECTS = 1200, 300
BROWSERS = ("chromium", "firefox")
QUIRKS = {
    "star-covers-authorization": "A star in Access-Control-Allow-Headers stands for `authorization` too. So a policy "
                                 "of any field name lets scripts send it; list the names to keep it out.",
    "more-safe-names": "Fields of client hints, User-Agent and Intervention are sent without leave.",
    "range-in-63-bits": "A range from 2^63 on is taken for none, so it needs leave.",
    "bodiless-upload": "An upload listener makes no preflight if there is no body.",
    "preflight-names-page": "A preflight after a redirect to a further origin names the page's origin, and not `null`.",
    "preflight-sticks": "If the first request needed a preflight, so does each that it is redirected to.",
}
INTRODUCTION = """
Pages of nine origins in each browser make requests, at random and by hand, to a server that answers
with the field lines of `decide_cors`. Compared are what the script could read, which fields it could see, and
which requests came, with what the policy allows. Elements are pictures, scripts, styles, fonts, sound, events and
beacons, from a page of http and one of `file:`. Scenarios are how long preflights are kept, Vary and the HTTP cache,
and a policy that changes.

Browsers leave the Fetch standard in known ways. A request counts as explained by one only if the standard with it gives
exactly what the browser did.
"""


async def judge(browser: str, context: Context, part: Part) -> tuple[list[object], Findings]:
    found = await pairs.judge(browser, context.seed, PLAIN, REDIRECTS)
    loads, wrong_loads = await elements.judge(browser)
    count, wrong_scenarios = await scenarios.judge(browser)
    part.faults += found.unexplained + wrong_loads + wrong_scenarios
    row = [version(browser), found.asked, found.readable, found.preflights, found.with_quirk,
           len(found.unexplained), f"{len(wrong_loads)} of {loads}", f"{len(wrong_scenarios)} of {count}"]
    return row, found


def run(context: Context) -> Part:
    part = Part("Requests from other origins")
    rows: list[list[object]] = []
    quirks: dict[str, dict[str, int]] = {}
    for browser in BROWSERS:
        try:
            row, found = asyncio.run(judge(browser, context, part))
        except Missing as missing:
            part.missing.append(f"{browser}: {missing}")
            continue
        except TimeoutError:
            part.faults.append(f"{browser} didn't finish")
            continue
        print(f"cors: {row[0]}: {found.asked} requests, {len(found.unexplained)} otherwise", flush=True)
        rows.append(row)
        for name, many in found.explained.items():
            quirks.setdefault(name, {})[browser] = many
    part.section += INTRODUCTION.strip().split("\n") + [""]
    part.table(["Browser", "requests", "readable", "with a preflight", "explained by a known quirk", "otherwise",
                "elements otherwise", "scenarios otherwise"], rows)
    part.table(["Known quirk", "Chromium", "Firefox"],
               [[QUIRKS[name], many.get("chromium", 0), many.get("firefox", 0)] for name, many in quirks.items()])
    part.want("disagreements with browsers beyond their known quirks", len(part.faults), 0)
    comparison = against_model.compare(context.seed, context.inputs)
    part.section += ["The library beside a second reading of its page, and the Fetch standard over its field lines",
                     f"beside the rules, on {context.inputs:,} random policies and requests:", ""]
    part.table(["Call", "as the model", "otherwise", "malformed, without a rule"], comparison.rows())
    part.want(f"differences from the models on {context.inputs:,} inputs", comparison.differences, 0)
    part.faults += comparison.faults()
    return part
