"""Servers, libraries and browsers that run as processes of their own. Each is ended by its own process group."""
import contextlib
import os
import re
import shutil
import signal
import subprocess
import time
from collections.abc import Iterator, Mapping, Sequence
from pathlib import Path

from common import client

PYTHON = "/usr/bin/python3"  # with Debian's packages
TOP = Path(__file__).resolve().parents[1]
ENVIRONMENT = {
    "NODE_PATH": "/usr/share/nodejs", "PYTHONDONTWRITEBYTECODE": "1", "GO111MODULE": "off",
    "GOPATH": "/usr/share/gocode",
    "PATH": f"{os.environ['PATH']}:/usr/sbin:/sbin", "PERL_HASH_SEED": "0",
}


class Missing(Exception):
    """What a peer needs isn't on this machine."""


def environment(more: Mapping[str, str] | None = None) -> dict[str, str]:
    return {**os.environ, **ENVIRONMENT, **(more or {})}


def has(command: str) -> bool:
    return shutil.which(command, path=ENVIRONMENT["PATH"]) is not None


def output(words: Sequence[str | Path], text: bytes | None = None, timeout: float = 600) -> bytes:
    """What a command prints. Raises `Missing` if it can't run here."""
    try:
        done = subprocess.run(words, input=text, capture_output=True, env=environment(), timeout=timeout, check=False)
    except FileNotFoundError as error:
        raise Missing(str(error)) from None
    if done.returncode:
        lines = done.stderr.decode("utf-8", "replace").strip().splitlines()
        raise Missing(lines[-1] if lines else f"{words[0]} has status {done.returncode}")
    return done.stdout


def end(process: subprocess.Popen[bytes]) -> None:
    """Ends a process that was started with a session of its own, and all that it started."""
    for signal_ in (signal.SIGTERM, signal.SIGKILL):
        with contextlib.suppress(ProcessLookupError):
            os.killpg(process.pid, signal_)
        with contextlib.suppress(subprocess.TimeoutExpired):
            process.wait(15)
            return


@contextlib.contextmanager
def server(words: Sequence[str], port: int, target: str, log: Path, more: Mapping[str, str] | None = None,
           ) -> Iterator[None]:
    """Runs a server until the block ends, and waits until it answers 200. Raises `Missing` if it doesn't."""
    if not has(words[0]):
        raise Missing(f"there is no {words[0]}")
    with open(log, "wb") as file:
        process = subprocess.Popen(words, stdin=subprocess.DEVNULL, stdout=file, stderr=file, cwd=TOP,
                                   env=environment(more), start_new_session=True)
    try:
        for _ in range(150):
            with contextlib.suppress(*client.FAILURES):
                if client.ask(port, "GET", target, [], timeout=3).status == 200:
                    break
            if process.poll() is not None:
                break
            time.sleep(0.2)
        else:
            raise Missing(f"it doesn't answer: {log.read_text('utf-8', 'replace').strip()[-300:]}")
        if process.poll() is not None:
            raise Missing(f"it ended: {log.read_text('utf-8', 'replace').strip()[-300:]}")
        yield
    finally:
        end(process)


def filled(text: str, names: Mapping[str, str]) -> str:
    """A text with each `@NAME@` replaced."""
    for name, value in names.items():
        text = text.replace(f"@{name}@", value)
    return text


def fill(source: Path, target: Path, names: Mapping[str, str]) -> None:
    target.write_text(filled(source.read_text("utf-8"), names), "utf-8")


def titled(name: str, words: Sequence[str]) -> str:
    """The name of a peer, with the version that a command prints if there is one."""
    if not words:
        return name
    text = output(["sh", "-c", '"$@" 2>&1', "sh", *words]).decode("utf-8", "replace")
    number = re.search(r"\d+(\.\d+)+", text)
    return f"{name} {number[0]}" if number else name
