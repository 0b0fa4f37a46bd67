#!/usr/bin/env python3
"""The example of crates/example_notes over `typed_headers.wsgi.Serves`, for the same checks.

    tests/notes/run tests/notes/notes.py

With `--replay` it gives the same answers each time: without Date, and with tags that aren't random.
It reads requests of one connection from standard input, and answers them on standard output. The package and its
library are found as elsewhere: PYTHONPATH, TYPED_HEADERS_LIBRARY.
"""
import http.client
import io
import json
import re
import secrets
import sys
from email.utils import formatdate

from typed_headers import CorsPolicy, ETag, Method, Representation, Resource, State
from typed_headers.wsgi import Result, Served, Serves

JSON = "application/json"
CORS = CorsPolicy("*", ["PUT", "DELETE"], ["content-type", "if-match", "if-none-match"], ["etag", "location"])
GET, POST, DELETE = Method("GET"), Method("POST", JSON), Method("DELETE")
PUT = Method("PUT", JSON, needs_condition=True)
# The methods of the server, beside GET and HEAD.
IMPLEMENTED = ("POST", "PUT", "DELETE")
# Without a route each of them is answered by 404, and any other method by 501.
EVERY = ("GET", *IMPLEMENTED)


class Notes:
    """Texts by their numbers, each with its tag: a number at random, and that of the change that wrote it."""

    def __init__(self, series):
        self.by_id, self.series, self.changes, self.last = {}, series, 0, 0

    def tag(self):
        return ETag(f"{self.series}-{self.changes}")

    def write(self, place, text):
        self.changes += 1
        self.by_id[place] = (text, self.tag())
        return ("etag", str(self.tag()))

    def add(self, environ):
        text = content_of(environ)
        if text is None:
            return Result(400)
        self.last += 1
        return Result(201, [("location", f"/notes/{self.last}"), self.write(self.last, text)])

    def put(self, place, environ):
        text = content_of(environ)
        return Result(400) if text is None else Result(204, [self.write(place, text)])

    def remove(self, place):
        self.changes += 1
        del self.by_id[place]
        return Result(204)

    def find(self, environ):
        path = environ["PATH_INFO"]
        if path == "/notes":
            listed = json.dumps([f"/notes/{place}" for place in self.by_id], separators=(",", ":")).encode()
            return served([GET, POST], (listed, self.tag()), {"POST": self.add})
        note = re.fullmatch("/notes/([1-9][0-9]*)", path)
        if not note:
            return Served(Resource(EVERY, state=State.ABSENT, implemented=IMPLEMENTED, cors=CORS))
        place = int(note[1])
        methods = {"PUT": lambda it: self.put(place, it), "DELETE": lambda it: self.remove(place)}
        return served([GET, PUT, DELETE], self.by_id.get(place), methods)


def content_of(environ):
    text = environ["wsgi.input"].read()
    try:
        json.loads(text)
    except ValueError:
        return None
    return text


def served(methods, text, performed):
    """A resource with these methods, whose current text this is."""
    named = {"implemented": IMPLEMENTED, "by_media_type": True, "is_strict": True, "limit": 65536, "cors": CORS}
    if text is None:
        return Served(Resource(methods, state=State.ABSENT, **named), methods=performed)
    content, tag = text
    shown = Representation(JSON, len(content), tag, sends_ranges=False)
    return Served(Resource(methods, [shown], **named), lambda place: content, performed)


def main():
    """Answers the requests of one connection."""
    is_replayed = "--replay" in sys.argv[1:]
    series = 0 if is_replayed else secrets.randbits(64)
    application = Serves(Notes(series).find, explain=lambda answer, resource: None)
    source, sink = sys.stdin.buffer, sys.stdout.buffer
    while line := source.readline().decode("latin-1").split():
        method, target, version = line
        fields = http.client.parse_headers(source)
        content = source.read(int(fields.get("content-length", "0")))
        environ = {f"HTTP_{name.upper().replace('-', '_')}": value for name, value in fields.items()}
        environ |= {"REQUEST_METHOD": method, "REQUEST_URI": target, "PATH_INFO": target, "SERVER_PROTOCOL": version}
        environ |= {"wsgi.input": io.BytesIO(content), "CONTENT_LENGTH": fields.get("content-length", "")}
        environ |= {"CONTENT_TYPE": fields.get("content-type", "")}

        def start_response(status, sent):
            dated = [] if is_replayed else [("date", formatdate(usegmt=True))]
            head = "".join(f"{name}: {value}\r\n" for name, value in [*dated, *sent])
            sink.write(f"HTTP/1.1 {status}\r\n{head}\r\n".encode("latin-1"))

        sink.write(b"".join(application(environ, start_response)))
        sink.flush()


if __name__ == "__main__":
    main()
