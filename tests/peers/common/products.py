"""What is judged: the library for C by its Python binding, and the programs. `run` builds all."""
import os
from functools import cache
from pathlib import Path
from types import ModuleType


def program() -> Path:
    """The program of test cases."""
    return Path(os.environ["PEERS_PRODUCTS"], "test_decisions")


def gate() -> str:
    """The program of the gateway."""
    return str(Path(os.environ["PEERS_PRODUCTS"], "typed-headers-gate"))


@cache
def library() -> ModuleType:
    """The package `typed_headers`, whose extension has the library."""
    import typed_headers

    return typed_headers
