"""The end of a pass of the package for Python, as each of its users makes it."""
from typing import Any


def end(passing: Any, content: bytes, is_complete: bool, now: int | None = None) -> bool:
    """Hands on the content of the response that passes on, in two pieces. Returns whether it is stored."""
    half = len(content) // 2
    passing.received(content[:half])
    passing.received(content[half:])
    return passing.ended(complete=is_complete, now=now)
