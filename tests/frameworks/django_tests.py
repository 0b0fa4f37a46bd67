"""Runs Django's own tests of conditional requests, over views that leave conditions to the middleware.

    django_tests.py SOURCE

SOURCE is an unpacked source of Django, whose tests its packages lack. Its views answer as if there were no conditions,
but for those of PUT, of which the application asks `typed_headers.evaluate`. The status is 0 if just the tests of
`OTHERWISE` fail.
"""
import importlib
import sys
import types
import unittest
from datetime import timezone
from pathlib import Path
from typing import Any

import django
from ask import by_wsgi
from django.conf import settings
from typed_headers import Precondition, Target, evaluate, wsgi

#: Tests that want what RFC 9110 doesn't permit, with the section.
OTHERWISE = {
    # A star names each representation, also one without an entity tag (sections 13.1.1 and 13.1.2).
    "test_all_if_match",
    "test_all_if_none_match",
    # If-Unmodified-Since is ignored if no modification date is known (section 13.1.4).
    "test_single_condition_7",
    "test_single_condition_9",
}


class Response(types.SimpleNamespace):
    def __getitem__(self, name: str) -> Any:
        return self.headers[name]


class Client:
    """Stands for Django's test client: it asks the application through the middleware."""

    def __init__(self) -> None:
        from django.core.handlers.wsgi import WSGIHandler

        self.application = wsgi.ConditionalRequests(WSGIHandler())
        self.defaults: dict[str, str] = {}

    def ask(self, method: str, path: str) -> Any:
        fields = [(name[5:].replace("_", "-"), value) for name, value in self.defaults.items()]
        found = by_wsgi(self.application, method, path, fields)
        response = Response()
        response.status_code, response.content, response.headers = found.status, found.body, dict(found.fields)
        response.request = {"REQUEST_METHOD": method}
        return response

    def get(self, path: str) -> Any:
        return self.ask("GET", path)

    def head(self, path: str) -> Any:
        return self.ask("HEAD", path)

    def put(self, path: str) -> Any:
        return self.ask("PUT", path)


def view(etag: str | None, modified: Any) -> Any:
    """A view of a resource with these validators."""
    from django.http import HttpResponse
    from django.utils.http import http_date

    second = None if modified is None else int(modified.replace(tzinfo=timezone.utc).timestamp())

    def show(request: Any) -> Any:
        tests = sys.modules["conditional_processing.tests"]
        if request.method == "PUT":
            asked = evaluate("PUT", dict(request.headers), Target(etag, second))
            return HttpResponse(tests.FULL_RESPONSE) if asked is Precondition.PERFORM else HttpResponse(status=412)
        response = HttpResponse(tests.FULL_RESPONSE)
        if etag is not None:
            response["ETag"] = etag
        if second is not None:
            response["Last-Modified"] = http_date(second)
        return response

    return show


def main(source: str) -> int:
    sys.path.insert(0, str(Path(source, "tests")))
    settings.configure(ALLOWED_HOSTS=["*"], ROOT_URLCONF="conditional_processing.urls", MIDDLEWARE=[])
    django.setup()
    tests = importlib.import_module("conditional_processing.tests")
    views: Any = types.ModuleType("conditional_processing.views")
    of = {
        "index": (tests.ETAG, tests.LAST_MODIFIED), "last_modified_view1": (None, tests.LAST_MODIFIED),
        "last_modified_view2": (None, tests.LAST_MODIFIED), "etag_view1": (tests.ETAG, None),
        "etag_view2": (tests.ETAG, None), "etag_view_unquoted": (tests.ETAG, None),
        "etag_view_weak": (tests.WEAK_ETAG, None), "etag_view_none": (None, None),
    }
    for name, validators in of.items():
        setattr(views, name, view(*validators))
    package = importlib.import_module("conditional_processing")
    sys.modules["conditional_processing.views"] = package.views = views  # type: ignore[attr-defined]
    case: Any = tests.ConditionalGet
    case.client_class = Client
    result = unittest.TextTestRunner(verbosity=0).run(unittest.defaultTestLoader.loadTestsFromTestCase(case))
    failed = {test.id().rsplit(".", 1)[1] for test, _ in [*result.failures, *result.errors]}
    print(f"{result.testsRun} tests of Django {django.__version__}, otherwise: {', '.join(sorted(failed))}")
    return 0 if failed == OTHERWISE else 1


if __name__ == "__main__":
    sys.exit(main(sys.argv[1]))
