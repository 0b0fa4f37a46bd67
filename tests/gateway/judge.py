"""Runs the parts, and writes what they show into docs/measured/BESIDE_GATEWAYS.md. `run` calls it.

    judge.py [--table FILE] WORK PART..

A part's section of the page is replaced if all its peers are here. The last lines are one for each part; the status is
0 exactly if nothing was wrong.
"""
import argparse
import importlib
import sys
import time
import traceback
from pathlib import Path

from common import pages
from common.part import Context, Part

PARTS = ("smuggling", "readers", "traffic", "listening", "idle", "late", "speed")
TITLE = "# Beside nginx, HAProxy, Apache and Varnish"
HEAD = """
`tests/gateway/run` wrote this page. It installs the peers from Debian and runs them at 127.0.0.1.
"""


def run_part(name: str, context: Context) -> Part:
    """A part, or if it breaks off one that says where."""
    try:
        return importlib.import_module(name).run(context)
    except Exception:
        part = Part(name)
        part.faults.append(f"it broke off: {traceback.format_exc()}")
        part.missing.append("the rest of the part")
        return part


def main() -> int:
    words = argparse.ArgumentParser()
    page = Path(__file__).resolve().parents[2] / "docs/measured/BESIDE_GATEWAYS.md"
    words.add_argument("--table", type=Path, default=page)
    words.add_argument("work", type=Path)
    words.add_argument("parts", nargs="+", choices=PARTS, metavar="PART")
    given = words.parse_args()
    parts, lines = [], []
    for name in given.parts:
        began = time.time()
        work = given.work / name
        work.mkdir()
        work.chmod(0o755)
        part = run_part(name, Context(work, 0, 1))
        parts.append(part)
        for fault in part.faults:
            print(f"{name}: {fault}", flush=True)
        verdict = "held" if not part.faults else "failed"
        missing = f"; missing: {'; '.join(dict.fromkeys(part.missing))}" if part.missing else ""
        lines.append(f"{name}: {verdict}: {'; '.join(part.counts)}{missing} ({time.time() - began:.0f} s)")
    pages.write(given.table, TITLE, HEAD, parts)
    print("\n".join(lines))
    return 1 if any(part.faults for part in parts) else 0


if __name__ == "__main__":
    sys.exit(main())
