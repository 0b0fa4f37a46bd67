"""Applications of frameworks: each answers by itself, and without conditions or origins, for the middleware.

An application serves /KIND/LENGTH, as the cases have it. It is `None` if the framework isn't there, or has no such
feature.
"""
import datetime
import importlib
import importlib.metadata
import io
import tempfile
from collections.abc import Callable, Iterable
from dataclasses import dataclass
from pathlib import Path
from typing import Any

from conditional import servers
from conditional.cases import MODIFIED

from cors.policy import Policy

TIME = datetime.datetime.fromtimestamp(MODIFIED, datetime.timezone.utc)
DATE = "Tue, 14 Nov 2023 22:13:20 GMT"


@dataclass
class Framework:
    """A framework's application of each kind. `is_async` ones are ASGI, the others WSGI."""

    package: str
    is_async: bool
    # Answers conditions by itself, and how that is called; for these kinds of validators.
    own: Callable[[], Any] | None = None
    own_name: str = ""
    kinds: tuple[str, ...] = ("strong", "weak", "none", "nodate", "bare")
    # The middleware is put over that too. (Django's gives an entity tag to GET alone, so HEAD is answered by another.)
    is_wrapped: bool = False
    # Leaves conditions to the middleware.
    plain: Callable[[], Any] | None = None
    # Answers other origins by itself.
    own_cors: Callable[[Policy, list[tuple[str, str]]], Any] | None = None
    cors_name: str = ""
    # Leaves other origins to the middleware.
    plain_cors: Callable[[list[tuple[str, str]]], Any] | None = None
    # Answers by a resource of the package.
    served: Callable[[], Any] | None = None

    def version(self) -> str | None:
        try:
            return importlib.metadata.version(self.package)
        except importlib.metadata.PackageNotFoundError:
            return None


def known(path: str) -> tuple[bytes, str | None, bool]:
    """The content of a path, its entity tag, and whether it has a date."""
    _, kind, length = path.split("/")
    tag = {"strong": '"v1-tag"', "nodate": '"v1-tag"', "weak": 'W/"v1-tag"'}.get(kind)
    return servers.content(int(length)), tag, kind not in ("nodate", "bare")


def fields_of(path: str) -> tuple[bytes, dict[str, str]]:
    content, tag, is_dated = known(path)
    fields = {"Content-Type": "application/octet-stream", **({"ETag": tag} if tag else {})}
    return content, {**fields, **({"Last-Modified": DATE} if is_dated else {})}


# Werkzeug and Flask


def werkzeug_own() -> Any:
    from werkzeug.exceptions import HTTPException
    from werkzeug.wrappers import Request, Response

    def application(environ: Any, start_response: Any) -> Any:
        content, tag, is_dated = known(environ["PATH_INFO"])
        response = Response(content, content_type="application/octet-stream")
        if tag:
            response.set_etag("v1-tag", weak=tag.startswith("W/"))
        if is_dated:
            response.last_modified = TIME
        try:
            response.make_conditional(Request(environ), accept_ranges=True, complete_length=len(content))
        except HTTPException as error:
            return error.get_response(environ)(environ, start_response)
        return response(environ, start_response)

    return application


def werkzeug_plain() -> Any:
    from werkzeug.wrappers import Response

    def application(environ: Any, start_response: Any) -> Any:
        content, fields = fields_of(environ["PATH_INFO"])
        return Response(content, headers=fields)(environ, start_response)

    return application


def werkzeug_served() -> Any:
    from typed_headers import Representation, Resource
    from typed_headers.wsgi import Served, Serves

    def find(environ: Any) -> Served:
        content, tag, is_dated = known(environ["PATH_INFO"])
        modified = TIME if is_dated else None
        shown = Representation("application/octet-stream", len(content), tag, modified)
        return Served(Resource(["GET"], [shown]), lambda place: content)

    return Serves(find)


def flask_own() -> Any:
    import flask

    app = flask.Flask(__name__)

    def show(kind: str, length: str) -> Any:
        content, tag, is_dated = known(f"/{kind}/{length}")
        etag = tag.strip('"') if tag else False
        modified = TIME if is_dated else None
        return flask.send_file(
            io.BytesIO(content), "application/octet-stream", conditional=True, etag=etag, last_modified=modified)

    app.add_url_rule("/<kind>/<length>", view_func=show, methods=["GET", "POST", "PUT", "DELETE"])
    return app.wsgi_app


def flask_plain() -> Any:
    import flask

    app = flask.Flask(__name__)

    def show(kind: str, length: str) -> Any:
        content, fields = fields_of(f"/{kind}/{length}")
        return content, 200, fields

    app.add_url_rule("/<kind>/<length>", view_func=show, methods=["GET", "POST", "PUT", "DELETE"])
    return app.wsgi_app


def flask_of_cors(own: list[tuple[str, str]]) -> Any:
    import flask

    app = flask.Flask(__name__)
    methods = ["GET", "HEAD", "POST", "PUT", "DELETE", "PATCH", "PURGE", "PROPFIND", "x"]

    def show(name: str = "") -> Any:
        response = flask.Response("content")
        for field, value in own:
            response.headers.add(field, value)
        return response

    app.add_url_rule("/", view_func=show, methods=methods)
    return app


def flask_plain_cors(own: list[tuple[str, str]]) -> Any:
    return flask_of_cors(own).wsgi_app


def flask_own_cors(policy: Policy, own: list[tuple[str, str]]) -> Any:
    import flask_cors

    app = flask_of_cors(own)
    # (GET, HEAD and POST need no leave by the standard; the extension wants them listed)
    methods = ["GET", "HEAD", "POST", "PUT", "DELETE", "PATCH", "PURGE"] if policy.methods == "*" else [
        "GET", "HEAD", "POST", *policy.methods]
    flask_cors.CORS(
        app, origins=policy.origins, methods=methods, allow_headers=policy.names, expose_headers=policy.exposed,
        supports_credentials=policy.credentials, max_age=policy.max_age)
    return app.wsgi_app


# Starlette


def starlette_own() -> Any:
    from starlette.applications import Starlette
    from starlette.routing import Mount
    from starlette.staticfiles import StaticFiles

    folder = Path(tempfile.mkdtemp()) / "files"
    servers.make_files(folder)
    return Starlette(routes=[Mount("/strong", StaticFiles(directory=folder))])


def starlette_plain() -> Any:
    from starlette.applications import Starlette
    from starlette.responses import Response
    from starlette.routing import Route

    async def show(request: Any) -> Any:
        content, fields = fields_of(request.url.path)
        return Response(content, headers=fields)

    methods = ["GET", "HEAD", "POST", "PUT", "DELETE"]
    return Starlette(routes=[Route("/{kind}/{length}", show, methods=methods)])


def starlette_of_cors(own: list[tuple[str, str]], middleware: Iterable[Any] = ()) -> Any:
    from starlette.applications import Starlette
    from starlette.responses import Response
    from starlette.routing import Route

    async def show(request: Any) -> Any:
        response = Response(b"content")
        for field, value in own:
            response.headers.append(field, value)
        return response

    methods = ["GET", "HEAD", "POST", "PUT", "DELETE", "PATCH", "PURGE", "PROPFIND", "x"]
    return Starlette(routes=[Route("/", show, methods=methods)], middleware=list(middleware))


def starlette_own_cors(policy: Policy, own: list[tuple[str, str]]) -> Any:
    from starlette.middleware import Middleware
    from starlette.middleware.cors import CORSMiddleware

    def listed(values: Any) -> list[str]:
        return ["*"] if values == "*" else values

    # (GET, HEAD and POST need no leave by the standard; the middleware wants them listed)
    methods = ["*"] if policy.methods == "*" else ["GET", "HEAD", "POST", *policy.methods]
    more = {} if policy.max_age is None else {"max_age": policy.max_age}
    return starlette_of_cors(own, [Middleware(
        CORSMiddleware, allow_origins=listed(policy.origins), allow_methods=methods,
        allow_headers=listed(policy.names), expose_headers=listed(policy.exposed),
        allow_credentials=policy.credentials, **more)])


# Django


def django_app(middleware: list[str], is_async: bool) -> Any:
    from django.conf import settings

    if not settings.configured:
        settings.configure(ALLOWED_HOSTS=["*"], USE_TZ=True, DEBUG=False, ROOT_URLCONF=__name__, MIDDLEWARE=[])
        import django

        django.setup()
    settings.MIDDLEWARE = middleware
    if is_async:
        from django.core.handlers.asgi import ASGIHandler

        return ASGIHandler()
    from django.core.handlers.wsgi import WSGIHandler

    return WSGIHandler()


def django_view(request: Any, path: str) -> Any:
    from django.http import HttpResponse

    content, fields = fields_of(request.path)
    response = HttpResponse(content)
    for name, value in fields.items():
        response[name] = value
    return response


def django_own() -> Any:
    return django_app(["django.middleware.http.ConditionalGetMiddleware"], False)


def django_plain() -> Any:
    return django_app(["django.middleware.common.CommonMiddleware"], False)


def django_async_plain() -> Any:
    return django_app(["django.middleware.common.CommonMiddleware"], True)


def __getattr__(name: str) -> Any:
    """Django looks up the routes here."""
    if name == "urlpatterns":
        return [importlib.import_module("django.urls").re_path(r"^(.*)$", django_view)]
    raise AttributeError(name)


FRAMEWORKS = [
    Framework("werkzeug", False, werkzeug_own, "`Response.make_conditional`", is_wrapped=True, plain=werkzeug_plain,
              served=werkzeug_served),
    Framework("flask", False, flask_own, "`send_file`", ("strong", "none", "nodate", "bare"), True, flask_plain,
              None, "", flask_plain_cors),
    Framework("flask-cors", False, own_cors=flask_own_cors, cors_name="`CORS`"),
    Framework("starlette", True, starlette_own, "`StaticFiles`", ("strong",), True, starlette_plain,
              starlette_own_cors, "`CORSMiddleware`", starlette_of_cors),
    Framework("django", False, django_own, "`ConditionalGetMiddleware`", plain=django_plain),
    Framework("django", True, plain=django_async_plain),
]
