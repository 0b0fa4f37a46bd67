"""The examples in docstrings, in README.md and in CONNECTION.md."""

import doctest
import importlib
import importlib.util
import pkgutil
import re
import unittest
from pathlib import Path

import typed_headers


def load_tests(loader: unittest.TestLoader, tests: unittest.TestSuite, pattern: str) -> unittest.TestSuite:
    # (what is imported of Django wants its settings)
    others = {it: it for it in ("httpx", "requests", "starlette", "uvicorn")}
    others.update(proxy="httpx", _sending="httpx")
    unread = ["__main__", "_native", "django", *(it for it in others if not importlib.util.find_spec(others[it]))]
    names = [it.name for it in pkgutil.iter_modules(typed_headers.__path__) if it.name not in unread]
    for module in (typed_headers, *(importlib.import_module(f"typed_headers.{name}") for name in names)):
        tests.addTests(doctest.DocTestSuite(module))
    for page in (Path(__file__).resolve().parent.parent / name for name in ("README.md", "CONNECTION.md")):
        if page.exists():
            tests.addTests(doctest.DocFileSuite(str(page), module_relative=False))
    return tests


class Exports(unittest.TestCase):
    def test_all_names_exist(self) -> None:
        for name in typed_headers.__all__:
            self.assertTrue(hasattr(typed_headers, name), name)

    def test_the_types_of_the_extension_are_those_of_its_calls(self) -> None:
        native = importlib.import_module("typed_headers._native")
        path = Path(typed_headers.__file__).with_name("_native.pyi")
        typed = re.findall(r"(?m)^def (\w+)\(", path.read_text("utf-8"))
        self.assertEqual({name for name in dir(native) if not name.startswith("_")}, set(typed))

    def test_version(self) -> None:
        self.assertEqual(typed_headers.version().split(".")[0], typed_headers.__version__.split(".")[0])
