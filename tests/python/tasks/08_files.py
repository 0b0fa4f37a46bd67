"""Serve a folder of files, with the copies that a build step compressed, and nothing that begins with a dot."""

import gzip
import tempfile
from pathlib import Path
from typing import Any, Dict, List, Tuple

from typed_headers.wsgi import Files

folder = Path(tempfile.mkdtemp())
(folder / "app.js").write_text("let answer = 42;\n")
(folder / "app.js.gz").write_bytes(gzip.compress(b"let answer = 42;\n"))
(folder / ".env").write_text("SECRET=1\n")
application = Files(folder, precompressed=True, cache_control="max-age=60")


def ask(path: str, **fields: str) -> None:
    def start_response(status: str, fields: List[Tuple[str, str]], exc_info: object = None) -> Any:
        told = dict(fields)
        print(path, status, told.get("content-type"), told.get("content-encoding"), told.get("vary"))

    environ: Dict[str, Any] = {"REQUEST_METHOD": "GET", "HTTP_HOST": "a.example", "PATH_INFO": path, **fields}
    print(len(b"".join(application(environ, start_response))))


ask("/app.js")
ask("/app.js", HTTP_ACCEPT_ENCODING="gzip, br")
ask("/app.js", HTTP_RANGE="bytes=0-2")
ask("/.env")

# /app.js 200 OK text/javascript; charset=utf-8 None accept-encoding
# 17
# /app.js 200 OK text/javascript; charset=utf-8 gzip accept-encoding
# 37
# /app.js 206 Partial Content text/javascript; charset=utf-8 None accept-encoding
# 3
# /.env 404 Not Found text/html; charset=utf-8 None None
# 68
