"""A report is made in memory. Let clients resume its download, and ask whether it changed, without a framework."""

from typing import Any, Dict, Iterable, List, Tuple

from typed_headers.wsgi import ConditionalRequests

Fields = List[Tuple[str, str]]


def application(environ: Dict[str, Any], start_response: Any) -> Iterable[bytes]:
    start_response("200 OK", [("Content-Type", "text/csv"), ("ETag", '"7"')])
    return [b"name,count\n", b"milk,2\n"]


served = ConditionalRequests(application)


def ask(**fields: str) -> None:
    def start_response(status: str, fields: Fields, exc_info: object = None) -> Any:
        print(status, dict(fields).get("content-range"))

    print(b"".join(served({"REQUEST_METHOD": "GET", **fields}, start_response)))


ask(HTTP_RANGE="bytes=11-", HTTP_IF_RANGE='"7"')
ask(HTTP_IF_NONE_MATCH='"7"')

# 206 Partial Content bytes 11-17/18
# b'milk,2\n'
# 304 Not Modified None
# b''
