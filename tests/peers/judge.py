"""Runs the parts, and writes what they show into docs/measured/BESIDE_PEERS.md. `run` calls it, and says what is built and
installed.

    judge.py [--inputs N] [--passes N] [--seed N] [--jobs N] [--table FILE] WORK PART..

A part's section of the table is replaced if all its peers are here. The last lines are one for each part; the status
is 0 exactly if nothing was wrong.
"""
import argparse
import importlib
import sys
import time
import traceback
from pathlib import Path

from common import pages
from common.part import Context, Part

PARTS = ("caching", "clients", "histories", "conditional", "negotiation", "cors", "handshake")
TITLE = "# Beside caches, servers, libraries and browsers"
HEAD = """
Each decision of this repository and its peers get the same inputs. A model of the standard judges both: a
second reading of its text, in Python (`tests/peers`). Expected values come from the RFCs and from the peers, never
from ours. The inputs of the models have escapes and bytes past ASCII.

`tests/peers/run` wrote this page. It installs the peers from Debian, runs them at 127.0.0.1, and takes some twenty
minutes. It needs no proof, so a changed decision can be tried first.
"""


def run_part(name: str, context: Context) -> Part:
    """A part, or if it breaks off one that says where."""
    try:
        return importlib.import_module(f"{name}.part").run(context)
    except Exception:
        part = Part(name)
        part.faults.append(f"it broke off: {traceback.format_exc()}")
        part.missing.append("the rest of the part")
        return part


def main() -> int:
    words = argparse.ArgumentParser()
    words.add_argument("--inputs", type=int, default=100_000, help="how many inputs each model is given")
    words.add_argument("--passes", type=int, default=1000, help="how many histories are of passes")
    words.add_argument("--seed", type=int, default=1)
    words.add_argument("--jobs", type=int, help="in how many processes histories are played")
    page = Path(__file__).resolve().parents[2] / "docs/measured/BESIDE_PEERS.md"
    words.add_argument("--table", type=Path, default=page)
    words.add_argument("work", type=Path)
    words.add_argument("parts", nargs="*", choices=PARTS, metavar="PART")
    given = words.parse_args()
    parts, lines = [], []
    for name in given.parts or PARTS:
        began = time.time()
        work = given.work / name
        work.mkdir()
        work.chmod(0o755)
        part = run_part(name, Context(work, given.inputs, given.seed, given.jobs, given.passes))
        parts.append(part)
        for fault in part.faults:
            print(f"{name}: {fault}", flush=True)
        verdict = "held" if not part.faults else "failed"
        missing = f"; missing: {'; '.join(dict.fromkeys(part.missing))}" if part.missing else ""
        lines.append(f"{name}: {verdict}: {'; '.join(part.counts)}{missing} ({time.time() - began:.0f} s)")
    pages.write(given.table, TITLE, HEAD, parts)
    print("\n".join(lines))
    return 1 if any(part.faults for part in parts) else 0


if __name__ == "__main__":
    sys.exit(main())
