"""Calls of the program of test cases (crates/test_decisions), and their answers."""
import re
import subprocess
import tempfile
from collections.abc import Iterable, Sequence
from pathlib import Path

# A program prints each test case whose answer isn't as wanted. No call gives this one, so it prints all.
UNGIVEN = "(asked)"
BATCH = 20_000


def word(value: bytes | str) -> str:
    """Bytes as a word of a test case."""
    data = value.encode("latin-1") if isinstance(value, str) else value
    if not data:
        return "()"
    text = "".join(chr(byte) if 0x20 < byte < 0x7F and byte != 0x25 else f"%{byte:02X}" for byte in data)
    if text in ("=", "!"):
        return f"%{data[0]:02X}"
    return "%28" + text[1:] if text.startswith("(") else text


def unword(text: str) -> bytes:
    return b"" if text == "()" else re.sub(rb"%([0-9A-F]{2})", lambda it: bytes([int(it[1], 16)]), text.encode())


def map_words(fields: Iterable[Sequence[bytes | str]]) -> list[str]:
    """Fields as the words of a map. The lines of a name stand together."""
    names: dict[str, list[str]] = {}
    for name, value in fields:
        name = name.decode("latin-1") if isinstance(name, bytes) else name
        names.setdefault(name.lower(), []).append(word(value))
    return [text for name, values in names.items() for text in (f"({name})", *values)]


def read_map(words: Iterable[str]) -> list[tuple[bytes, bytes]]:
    """The fields that the words of an answer show."""
    fields, name = [], b""
    for text in words:
        if text in ("(none)", "(sensitive)"):
            continue
        if text.startswith("(") and text != "()":
            name = text[1:-1].encode()
        else:
            fields.append((name, unword(text)))
    return fields


def answers(program: Path, calls: Sequence[str]) -> list[str]:
    """What the program answers to each call."""
    return [it for start in range(0, len(calls), BATCH) for it in _batch(program, calls[start : start + BATCH])]


def _batch(program: Path, calls: Sequence[str]) -> list[str]:
    with tempfile.TemporaryDirectory() as folder:
        Path(folder, "calls.rows").write_text("".join(f"{call} = {UNGIVEN}\n" for call in calls), "utf-8")
        done = subprocess.run([program, "calls.rows"], cwd=folder, capture_output=True, text=True, check=False)
    given = {}
    for line in done.stdout.splitlines():
        head, mark, answer = line.rpartition(f": wanted {UNGIVEN}, given ")
        place = re.match(r"calls\.rows:(\d+): ", head)
        if mark and place:
            given[int(place[1])] = answer
    for number, call in enumerate(calls, 1):
        if number not in given:
            raise RuntimeError(f"no answer to {call}: {done.stdout[:500]} {done.stderr[:500]}")
    return [given[number] for number in range(1, len(calls) + 1)]
