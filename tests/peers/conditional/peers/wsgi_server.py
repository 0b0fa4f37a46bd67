"""Serves FOLDER/LENGTH under /KIND/LENGTH by a framework's response: wsgi_server.py PORT FOLDER FRAMEWORK, which is
werkzeug, django or webob. Lines of one name reach it joined by a comma, as WSGI servers hand them on."""
import datetime
import sys
from socketserver import ThreadingMixIn
from wsgiref.simple_server import WSGIRequestHandler, WSGIServer, make_server

port, folder, framework = sys.argv[1:]
MODIFIED = datetime.datetime(2023, 11, 14, 22, 13, 20, tzinfo=datetime.timezone.utc)


def known(path):
    _, kind, length = path.split("/")
    with open(f"{folder}/{length}", "rb") as file:
        content = file.read()
    return content, kind in ("strong", "nodate", "weak"), kind == "weak", kind not in ("nodate", "bare")


def by_werkzeug(environ, start_response):
    from werkzeug.exceptions import HTTPException
    from werkzeug.wrappers import Request, Response

    content, is_tagged, is_weak, is_dated = known(environ["PATH_INFO"])
    response = Response(content, content_type="application/octet-stream")
    if is_tagged:
        response.set_etag("v1-tag", weak=is_weak)
    if is_dated:
        response.last_modified = MODIFIED
    try:
        response.make_conditional(Request(environ), accept_ranges=True, complete_length=len(content))
    except HTTPException as error:
        return error.get_response(environ)(environ, start_response)
    return response(environ, start_response)


def by_webob(environ, start_response):
    from webob import Response

    content, is_tagged, is_weak, is_dated = known(environ["PATH_INFO"])
    response = Response(content, content_type="application/octet-stream", conditional_response=True)
    if is_tagged:
        response.headers["ETag"] = 'W/"v1-tag"' if is_weak else '"v1-tag"'
    if is_dated:
        response.last_modified = MODIFIED
    response.accept_ranges = "bytes"
    return response(environ, start_response)


def by_django(environ, start_response):
    from django.conf import settings

    if not settings.configured:
        settings.configure(ALLOWED_HOSTS=["*"], USE_TZ=True, DEBUG=False)
        import django

        django.setup()
    from django.core.handlers.wsgi import WSGIRequest
    from django.http import HttpResponse
    from django.utils.cache import get_conditional_response
    from django.utils.http import http_date

    content, is_tagged, is_weak, is_dated = known(environ["PATH_INFO"])
    response = HttpResponse(content, content_type="application/octet-stream")
    etag = ('W/"v1-tag"' if is_weak else '"v1-tag"') if is_tagged else None
    modified = int(MODIFIED.timestamp()) if is_dated else None
    if etag:
        response["ETag"] = etag
    if modified:
        response["Last-Modified"] = http_date(modified)
    response = get_conditional_response(WSGIRequest(environ), etag, modified, response)
    if response.status_code == 200:
        response["Content-Length"] = str(len(content))
    start_response(f"{response.status_code} x", list(response.items()))
    return [response.content]


class Server(ThreadingMixIn, WSGIServer):
    daemon_threads = True


class Quiet(WSGIRequestHandler):
    def log_message(self, *_):
        pass


make_server("127.0.0.1", int(port), {"werkzeug": by_werkzeug, "webob": by_webob, "django": by_django}[framework],
            server_class=Server, handler_class=Quiet).serve_forever()
