"""A program asks for the same page again and again. Let it keep the page for as long as the server allows."""

import threading
from http.server import BaseHTTPRequestHandler, HTTPServer

import requests

from typed_headers.requests import CachedAdapter


class Origin(BaseHTTPRequestHandler):
    def do_GET(self) -> None:
        print("asked:", self.path, self.headers["If-None-Match"])
        is_same = self.headers["If-None-Match"] == '"1"'
        self.send_response(304 if is_same else 200)
        self.send_header("Cache-Control", "max-age=60" if self.path == "/page" else "no-cache")
        self.send_header("ETag", '"1"')
        self.end_headers()
        if not is_same:
            self.wfile.write(b"content")

    def log_message(self, *_: object) -> None:
        pass


origin = HTTPServer(("127.0.0.1", 0), Origin)
threading.Thread(target=origin.serve_forever, daemon=True).start()
session = requests.Session()
session.mount("http://", CachedAdapter())
for path in ("/page", "/page", "/news", "/news"):
    print(session.get(f"http://127.0.0.1:{origin.server_port}{path}").text)

# asked: /page None
# content
# content
# asked: /news None
# content
# asked: /news "1"
# content
