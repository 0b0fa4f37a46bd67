"""Writes the table of what frameworks answer into a page, below its last heading.

    page.py PAGE JSON..

The status is 1 if an answer of the middleware is wrong.
"""
import json
import sys
from pathlib import Path
from typing import Any

TITLE = "## What frameworks answer by themselves\n"
EXAMPLES = 3


def table(head: list[str], rows: list[list[object]]) -> str:
    lines = [head, ["---"] * len(head), *rows]
    return "".join(f"| {' | '.join(str(it).replace('|', chr(92) + '|') for it in line)} |\n" for line in lines)


def examples(rows: list[dict[str, Any]]) -> str:
    found: list[list[object]] = []
    for row in rows:
        kinds = sorted(row["kinds"].items(), key=lambda it: -it[1])[:EXAMPLES]
        found += [[row["framework"], count, kind, f"`{row['examples'][kind]}`"] for kind, count in kinds]
    return table(["Framework", "requests", "What is wrong", "Shortest example"], found)


def main(page: Path, *names: str) -> int:
    rows = [row for name in names for row in json.loads(Path(name).read_text("utf-8"))]
    rows.sort(key=lambda row: (row["framework"], row["is_ours"]))
    conditions = [row for row in rows if row["part"] == "conditions"]
    origins = [row for row in rows if row["part"] == "origins"]
    text = page.read_text("utf-8").split(TITLE)[0] + TITLE + """
<!-- tests/frameworks/run -->
`tests/frameworks/run` wrote these tables. An answer counts as *not permitted* if RFC 9110, sections 13 and 14, permits
other answers alone, or if a 206 hasn't the bytes that it says. *Parts* are the 206 among the requests for which one is
permitted. The requests are GET and HEAD, made by hand, from the tables of Go's own tests, or at random.

""" + table(
        ["Framework", "Answers by", "asked", "not permitted", "parts"],
        [[it["framework"], it["how"], it["asked"], it["wrong"], f"{it['parts']} of {it['possible']}"]
         for it in conditions],
    ) + "\n" + examples([it for it in conditions if not it["is_ours"]]) + """
Of requests from other origins, a browser by the Fetch standard judges the answers. *Too much* are requests that it lets
through, or fields that it shows, though the policy doesn't allow that, *too little* those that it holds back though the
policy allows them. *Without Vary* are policies with which a cache may give an origin the response that was made for
another, or for a request without Origin, so that the browser does other than with the origin's own (Fetch standard,
"CORS protocol and HTTP caches").

""" + table(
        ["Framework", "Answers by", "asked", "too much", "too little", "fails", "without Vary"],
        [[it["framework"], it["how"], it["asked"], sum(it["kinds"].get(kind, 0) for kind in (
            "lets through what the policy doesn't allow", "shows a field that the policy doesn't expose")),
          sum(it["kinds"].get(kind, 0) for kind in (
              "blocks what the policy allows", "hides a field that the policy exposes")), it["failed"], it["stale"]]
         for it in origins],
    ) + "\n" + examples([it for it in origins if not it["is_ours"]]) + "<!-- end of tests/frameworks/run -->\n"
    page.write_text(text, "utf-8")
    wrong = [it for it in rows if it["is_ours"] and (it["wrong"] or it["stale"])]
    for it in rows:
        print(f"{it['framework']} {it['how']}: {it['asked']} asked, {it['wrong']} not permitted")
    return 1 if wrong or not any(it["is_ours"] for it in rows) else 0


if __name__ == "__main__":
    sys.exit(main(Path(sys.argv[1]), *sys.argv[2:]))
