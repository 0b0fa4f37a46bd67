"""Shows a site by the file server, and by nginx, to Chromium, and compares what the pages see.

    browse.py PROGRAM FOLDER TABLE

FOLDER gets the site. PROGRAM serves it behind socat, and nginx at a port of its own; they take turns. For each, a page
with all kinds of files has to pass its checks, a video of 204 MB is played after three seeks, and a reload has to send
no file again. Then pages of another origin read the files that a policy lets them read. The numbers go to
TABLE. Prints what is wrong of ours; the status is 0 if nothing is.
"""
import collections
import contextlib
import os
import signal
import socket
import subprocess
import sys
import threading
import time
import urllib.request
from functools import partial
from http.server import BaseHTTPRequestHandler, ThreadingHTTPServer
from pathlib import Path

import site_of
from chromium import Page

HERE = Path(__file__).resolve().parent
OURS, NGINX, OTHER, LISTED = 18400, 18401, 18402, 18403
ROUNDS = 3
THINGS = ["a response", "a range", "the last bytes", "If-None-Match", "If-Range", "a redirect", "a 404", "a module",
          "a font", "a picture on a canvas", "a video", "WebAssembly"]
wrong = []


@contextlib.contextmanager
def running(words, port, **options):
    """Runs a server until the block ends, and waits until it listens."""
    process = subprocess.Popen(words, stderr=subprocess.DEVNULL, start_new_session=True, **options)
    try:
        for _ in range(100):
            with contextlib.suppress(OSError), socket.create_connection(("127.0.0.1", port)):
                break
            time.sleep(0.1)
        else:
            sys.exit(f"{words[0]} doesn't listen at port {port}")
        yield
    finally:
        os.killpg(process.pid, signal.SIGTERM)
        process.wait()


def ours(program, site, *options):
    # (socat would divide a command at a colon)
    words = " ".join([program, "--cache-control", "no-cache", *options, str(site)]).replace(":", "\\:")
    listen = f"TCP-LISTEN:{OURS},bind=127.0.0.1,reuseaddr,backlog=1024,fork"
    return running(["socat", "-t", "60", listen, f"EXEC:{words}"], OURS)


def nginx(work, site):
    work.mkdir(exist_ok=True)
    text = (HERE.parent / "nginx.conf").read_text("utf-8").replace("FOLDER/www", str(site)).replace("FOLDER", str(work))
    text = text.replace("PORT", str(NGINX)).replace("LISTED", str(LISTED))
    text = text.replace("worker_processes", "daemon off; worker_processes")
    text = text.replace("if_modified_since", "add_header Cache-Control no-cache; if_modified_since")
    (work / "nginx.conf").write_text(text, "utf-8")
    return running(["nginx", "-c", str(work / "nginx.conf")], NGINX,
                   env={**os.environ, "PATH": os.environ["PATH"] + ":/usr/sbin"})


def counted(events):
    """The statuses that came, and the bytes of content."""
    heads = [it for name, it in events if name == "Network.responseReceivedExtraInfo"]
    statuses = collections.Counter(it["statusCode"] for it in heads)
    return statuses, sum(it["encodedDataLength"] for name, it in events if name == "Network.dataReceived")


def sent_again(events):
    """The files that were sent whole, by their paths."""
    urls = {it["requestId"]: it["request"]["url"] for name, it in events if name == "Network.requestWillBeSent"}
    whole = {it["requestId"] for name, it in events
             if name == "Network.responseReceivedExtraInfo" and it["statusCode"] == 200}
    return sorted(urls[it].split("/", 3)[3] for it in whole & set(urls))


def browse(port):
    """What a fresh browser sees of a server: what fails, and numbers."""
    with Page() as page:
        begun = time.monotonic()
        page.go(f"http://127.0.0.1:{port}/")
        results = page.run("results")
        loaded = time.monotonic() - begun
        page.take()
        sought = page.run(f"({(HERE / 'seek.js').read_text('utf-8')})('/huge.mp4')")
        statuses, count = counted(page.take())
        page.go()
        again = page.run("results")
        events = page.take()
        return {"failed": results["failed"] | again["failed"], "count": results["count"], "loaded": loaded,
                "sought": sought, "ranges": statuses[206], "megabytes": count / 1e6,
                "validated": counted(events)[0][304], "whole": sent_again(events)}


class Empty(BaseHTTPRequestHandler):
    """Answers each request by an empty page."""

    def do_GET(self):
        content = b"<!doctype html><body>"
        self.send_response(200)
        self.send_header("Content-Type", "text/html")
        self.send_header("Content-Length", str(len(content)))
        self.end_headers()
        self.wfile.write(content)

    def log_message(self, *_):
        pass


def across(program, site):
    """What a page of another origin reads under each policy."""
    own = f"http://127.0.0.1:{OTHER}"
    pages = ThreadingHTTPServer(("127.0.0.1", OTHER), Empty)
    threading.Thread(target=pages.serve_forever, daemon=True).start()
    script = (HERE / "across.js").read_text("utf-8")
    policies = [("its origin", ["--cors-origin", own], THINGS), ("any origin", ["--cors-origin", "*"], THINGS),
                ("another origin", ["--cors-origin", "http://other.example"], []), ("no origin", [], [])]
    for name, options, wanted in policies:
        with ours(program, site, *options), Page() as page:
            with urllib.request.urlopen(f"http://127.0.0.1:{OURS}/data.json") as answer:
                answer.read()
            page.go(own)
            read = page.run(f"({script})('http://127.0.0.1:{OURS}/')")
            if read != wanted:
                wrong.append(f"with a policy for {name} a page reads {read}")
    pages.shutdown()
    return len(THINGS)


def row(name, rounds):
    """A line of the table: the least of the numbers of all rounds."""
    least = {key: min(it[key] for it in rounds) for key in ("loaded", "sought", "megabytes")}
    failed = sorted({key for it in rounds for key in it["failed"]})
    count = rounds[0]["count"]
    passed = f"{count - len(failed)} of {count}" + (f" (not {', '.join(failed)})" if failed else "")
    ranges = "/".join(str(it["ranges"]) for it in rounds)
    numbers = [f"{least[key]:.1f}" for key in ("loaded", "sought")] + [f"{least['megabytes']:.0f}", ranges]
    return f"| {name} | {passed} | {' | '.join(numbers)} | {min(it['validated'] for it in rounds)} |"


def main():
    program, folder, table = sys.argv[1:]
    site = Path(folder) / "site"
    site.mkdir()
    os.chmod(folder, 0o755)
    site_of.make(site)
    time.sleep(3)
    servers = {
        "ours": (OURS, partial(ours, program, site)),
        "ours, `--precompressed`": (OURS, partial(ours, program, site, "--precompressed")),
        "nginx": (NGINX, partial(nginx, Path(folder) / "nginx", site)),
    }
    found = {name: [] for name in servers}
    for _ in range(ROUNDS):
        for name, (port, server) in servers.items():
            with server():
                found[name].append(browse(port))
                print(f"{name}: {found[name][-1]}", flush=True)
    for name, rounds in found.items():
        for it in rounds:
            # (a range is asked for in no coding, and the browser keeps one of two that Vary tells apart)
            again = set(it["whole"]) - ({"data.json"} if "precompressed" in name else set())
            if name.startswith("ours") and (it["failed"] or again):
                wrong.append(f"{name}: fails {it['failed']}, sends {sorted(again)} again")
    count = across(program, site)
    lines = ["| Server | Checks that pass | Load and check, s | Three seeks in 204 MB, s | MB | Ranges | "
             "304 at a reload |", "|---|---|---:|---:|---:|---:|---:|", *(row(name, rounds) for name, rounds in found.items())]
    Path(table).write_text("\n".join(lines) + "\n", "utf-8")
    print("\n".join(lines))
    print(f"{count} things that a page of another origin may read under a policy for it, and under none nothing")
    for what in wrong:
        print(f"wrong: {what}")
    print(f"{len(wrong)} found wanting")
    return 1 if wrong else 0


if __name__ == "__main__":
    sys.exit(main())
