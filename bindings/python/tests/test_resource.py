"""Resources, and the application that answers for them, as servers and frameworks see it."""

import importlib
import io
import unittest
from email.utils import formatdate
from typing import Any, AsyncIterator, Dict, List, Optional, Tuple, Union
from unittest import mock
from wsgiref.util import FileWrapper, setup_testing_defaults
from wsgiref.validate import validator

from tests.test_middleware import CONTENT, Answer, by_asgi, by_wsgi, pieces_of
from typed_headers import asgi
from typed_headers import (
    Answer as ResourceAnswer,
    CorsPolicy,
    Denied,
    ETag,
    HeaderError,
    InvalidField,
    InvalidSection,
    MediaType,
    Method,
    Reason,
    Representation,
    Resource,
    Sends,
    State,
)
from typed_headers.wsgi import Result, Served, Serves

HOST = {"Host": "a.example"}
PAGES = [
    Representation("text/html", 20, '"en"', language="en"),
    Representation("text/html", 20, '"de"', language="de"),
    Representation("text/html", 20, '"gz"', language="en", coding="gzip"),
]
PAGE = Resource(["GET"], PAGES, by_language=True, by_coding=True)


def setUpModule() -> None:
    # wsgiref wants a Content-Type of each response, which HTTP doesn't.
    patch = mock.patch("wsgiref.validate.check_content_type")
    patch.start()
    unittest.addModuleCleanup(patch.stop)


class Answers(unittest.TestCase):
    def test_values_may_be_texts_or_types(self) -> None:
        typed = Resource([Method("GET")], [Representation(MediaType("text", "html"), 3, ETag("a"))])
        texts = Resource(("GET",), (Representation("text/html", 3, '"a"'),))
        self.assertEqual(typed.answer("GET", HOST), texts.answer(b"GET", [("host", "a.example")]))
        self.assertEqual(hash(Resource(["GET"])), hash(Resource([Method("GET")])))

    def test_the_preferred_representation(self) -> None:
        answer = PAGE.answer("GET", {**HOST, "Accept-Language": "de"})
        self.assertEqual((answer.place, dict(answer.fields)["content-language"]), (1, "de"))
        answer = PAGE.answer("GET", {**HOST, "Accept-Encoding": "gzip"})
        self.assertEqual((answer.place, dict(answer.fields)["content-encoding"]), (2, "gzip"))
        self.assertEqual([it for it in answer.fields if it[0] == "vary"],
                         [("vary", "accept-language"), ("vary", "accept-encoding")])

    def test_absolute_targets(self) -> None:
        resource = Resource(["GET"], PAGES, hosts=["a.example"])
        for target, wanted in (("HTTPS://A.example/?x", 200), ("http://b.example", 421), ("/http://b.example", 200)):
            self.assertEqual(resource.answer("GET", HOST, target=target).status, wanted, target)

    def test_content(self) -> None:
        resource = Resource(["POST"], needs_length=True, limit=10)
        for length, wanted in ((0, None), (10, None), (11, 413), (None, 411)):
            self.assertEqual(resource.answer("POST", HOST, length=length).status, wanted, length)

    def test_strong_dates_name_what_may_be_replaced(self) -> None:
        for strong, second, wanted in ((False, 100, 428), (True, 100, None), (True, 101, 428), (True, 99, 412)):
            put, notes = Method("PUT", needs_condition=True), [Representation(last_modified=100)]
            resource = Resource([put], notes, has_strong_dates=strong)
            asked = {**HOST, "If-Unmodified-Since": formatdate(second, usegmt=True)}
            self.assertEqual(resource.answer("PUT", asked).status, wanted, (strong, second))
            self.assertEqual(resource.answer("PUT", {**asked, "If-Match": "*"}).status, 428)

    def test_versions(self) -> None:
        for version, wanted in ((10, 200), (11, 400), (20, 400), (30, 400)):
            self.assertEqual(PAGE.answer("GET", {}, version=version).status, wanted, version)

    def test_ranges_of_several_parts(self) -> None:
        resource = Resource(["GET"], [Representation("text/plain", 10_000)], boundary="b-1")
        answer = resource.answer("GET", {**HOST, "Range": "bytes=0-0, 500-599"})
        self.assertEqual((answer.status, answer.sends), (206, Sends.PARTS))
        self.assertEqual([(it.first, it.last) for it in answer.ranges], [(0, 0), (500, 599)])
        self.assertEqual(dict(answer.fields)["content-type"], "multipart/byteranges; boundary=b-1")

    def test_more_parts_and_fields_than_the_first_room_has(self) -> None:
        asked = ", ".join(f"{place * 1000}-{place * 1000}" for place in range(60))
        origins = [f"https://{'a' * 40}{place}.example" for place in range(3)]
        exposed = [f"x-{'b' * 60}-{place}" for place in range(30)]
        resource = Resource(["GET"], [Representation(length=100_000)], cors=CorsPolicy(origins, exposed=exposed))
        answer = resource.answer("GET", {**HOST, "Range": f"bytes={asked}", "Origin": origins[2]})
        self.assertEqual(len(answer.ranges), 60)
        self.assertEqual(dict(answer.fields)["access-control-expose-headers"], ", ".join(exposed))

    def test_what_is_the_answers_own(self) -> None:
        fields = [("ETag", '"x"'), ("Content-Encoding", "br"), ("Server", "s"), ("Access-Control-Max-Age", "1")]
        answer = PAGE.answer("GET", {**HOST, "If-None-Match": '"en"'})
        self.assertEqual(answer.apply(fields)[:2], [("Server", "s"), ("Access-Control-Max-Age", "1")])
        answer = Resource(["POST"], cors=CorsPolicy("*")).answer("POST", HOST)
        self.assertEqual([name for name, _ in answer.apply(fields)][:3], ["ETag", "Content-Encoding", "Server"])

    def test_states(self) -> None:
        for state, wanted in ((State.ABSENT, 404), (State.GONE, 410), (State.PERMANENT_REDIRECT, 308)):
            answer = Resource(["GET"], state=state, location="/new").answer("GET", HOST)
            self.assertEqual(answer.status, wanted)
            self.assertEqual(answer.fields, (("location", "/new"),) if wanted == 308 else ())

    def test_options(self) -> None:
        cases: List[Tuple[List[Union[Method, str]], int]] = [(["GET"], 404), ([Method("PUT", creates=True)], 204)]
        for methods, wanted in cases:
            self.assertEqual(Resource(methods, state=State.ABSENT).answer("OPTIONS", HOST).status, wanted)
        server = Resource(["GET", "POST"], state=State.SERVER)
        self.assertEqual(server.answer("OPTIONS", HOST).fields, (("allow", "GET, HEAD, POST, OPTIONS"),))
        self.assertEqual(server.answer("GET", HOST).status, 404)

    def test_preflights(self) -> None:
        asks = {**HOST, "Origin": "https://a.example", "Access-Control-Request-Method": "PUT"}
        for state in (State.CURRENT, State.ABSENT, State.GONE):
            answer = Resource(["GET"], state=state, cors=CorsPolicy("*")).answer("OPTIONS", asks)
            self.assertEqual((answer.status, answer.reason), (204, Reason.PREFLIGHT))
            self.assertNotIn("allow", dict(answer.fields))

    def test_methods_of_the_server(self) -> None:
        cases: List[Tuple[Optional[List[str]], str, int]] = [
            (None, "POST", 405), (None, "PURGE", 501), (["PURGE"], "PURGE", 405), (["PURGE"], "POST", 501),
            ([], "POST", 501), ([], "GET", 200), ([], "OPTIONS", 204), (["purge"], "PURGE", 501),
        ]
        for implemented, method, wanted in cases:
            answer = Resource(["GET"], PAGES, implemented=implemented).answer(method, HOST)
            self.assertEqual(answer.status, wanted, (implemented, method))
            self.assertEqual("allow" in dict(answer.fields), wanted in (204, 405))
        listed, paired = Resource(["GET"], implemented=["PURGE"]), Resource(["GET"], implemented=("PURGE",))
        self.assertEqual(hash(listed), hash(paired))

    def test_denied_requests(self) -> None:
        policy, asked = CorsPolicy("https://app.example"), {**HOST, "Origin": "https://app.example"}
        shared = (("access-control-allow-origin", "https://app.example"), ("vary", "origin"))
        basic = Denied(401, challenge='Basic realm="a", Bearer')
        for denied, wanted in (
            (basic, (("www-authenticate", 'Basic realm="a", Bearer'),)),
            (Denied(403, challenge="Basic"), ()),
            (Denied(429, retry_after=120), (("retry-after", "120"),)),
            (Denied(429), ()),
            (Denied(503, retry_after=0), (("retry-after", "0"),)),
        ):
            for state in (State.CURRENT, State.GONE):
                for method in ("GET", "OPTIONS", "BREW"):
                    answer = Resource(["GET"], PAGES, state, cors=policy).answer(method, asked, denied=denied)
                    self.assertEqual((answer.status, answer.reason), (denied.status, Reason.DENIED))
                    self.assertEqual((answer.sends, set(answer.fields)), (Sends.NOTHING, {*wanted, *shared}))
        asked["Access-Control-Request-Method"] = "PUT"
        self.assertEqual(Resource(["GET"], cors=policy).answer("OPTIONS", asked, denied=basic).reason, Reason.PREFLIGHT)
        self.assertEqual(PAGE.answer("GET", {"Host": "a b"}, denied=basic).status, 400)

    def test_what_is_no_denial(self) -> None:
        for status in (0, 200, 402, 404, 500):
            with self.assertRaisesRegex(HeaderError, "status"):
                Denied(status)
        for challenge in ("", "Basic\n", "\x7f", "\u20ac"):
            with self.assertRaisesRegex(HeaderError, "challenge"):
                Denied(401, challenge)
        with self.assertRaisesRegex(HeaderError, "retry_after"):
            Denied(429, retry_after=-1)

    def test_what_is_no_resource(self) -> None:
        cases: List[Tuple[Dict[str, Any], str]] = [
            ({"methods": ["GE T"]}, "is no token"),
            ({"methods": ["GET\n"]}, "methods"),
            ({"methods": ["GET"], "state": State.MOVED_PERMANENTLY}, "location"),
            ({"methods": ["GET"], "boundary": "a b"}, "boundary"),
            ({"methods": ["GET"], "representations": [Representation(etag="a")]}, "etag"),
            ({"methods": ["GET"], "representations": [Representation(language="\x00")]}, "languages"),
            ({"methods": ["GET"], "representations": [Representation(last_modified=253_402_300_800)]}, "9999"),
            ({"methods": ["GET"], "hosts": ["\x7f"]}, "hosts"),
            ({"methods": ["GET"], "implemented": ["POST", "a b"]}, "implemented: 'a b' is no token"),
        ]
        for named, said in cases:
            with self.subTest(said), self.assertRaisesRegex(HeaderError, said):
                Resource(**named)
        with self.assertRaises(ValueError):
            Resource(["GET"], state=4)  # type: ignore[arg-type]

    def test_what_is_no_request(self) -> None:
        with self.assertRaises(InvalidSection):
            PAGE.answer("GET", "no field")
        wrong = [("G ET", "", 11), ("GET", "http:///x", 11), ("GET", "http://\x00", 11), ("GET", "", 12)]
        for method, target, version in wrong:
            with self.assertRaises(HeaderError):
                PAGE.answer(method, HOST, target=target, version=version)
        with self.assertRaises(InvalidField):
            PAGE.answer("GET", {"Host": "a\nb"})


def serves(kind: type = bytes, tag: Optional[str] = '"a"') -> Serves:
    """An application with one representation, whose content comes as a kind."""

    def content(place: int) -> Any:
        if kind is FileWrapper:
            return FileWrapper(io.BytesIO(CONTENT), 1000)
        return CONTENT if kind is bytes else list(pieces_of(CONTENT, 999))

    shown = Representation("text/plain", len(CONTENT), tag)
    methods = {"POST": lambda environ: Result(201, [("location", "/1")], b"made")}
    return Serves(lambda environ: Served(Resource(["GET", Method("POST", "text/plain")], [shown]), content, methods))


def ask(application: Any, method: str = "GET", **asked: str) -> Answer:
    return by_wsgi(application, method, {"Host": "a.example", **asked})


class Applications(unittest.TestCase):
    def test_content_of_each_kind(self) -> None:
        for kind in (bytes, list, FileWrapper):
            application = validator(serves(kind))
            with self.subTest(kind):
                answer = ask(application)
                self.assertEqual((answer.status, answer.content), (200, CONTENT))
                self.assertEqual(answer.fields["content-length"], "10000")
                answer = ask(application, Range="bytes=5000-")
                self.assertEqual((answer.status, answer.content), (206, CONTENT[5000:]))
                answer = ask(application, Range="bytes=0-9,9000-9009")
                self.assertEqual((answer.status, len(answer.content)), (206, int(answer.fields["content-length"])))
                self.assertEqual([it for _, it in answer.parts()], [CONTENT[:10], CONTENT[9000:9010]])
                answer = ask(application, "HEAD", Range="bytes=0-9")
                self.assertEqual((answer.status, answer.content, answer.fields["content-length"]), (200, b"", "10000"))

    def test_what_the_resource_answers(self) -> None:
        application = validator(serves())
        cases: List[Tuple[str, Dict[str, str], int]] = [
            ("GET", {"If_None_Match": '"a"'}, 304),
            ("GET", {"If_Match": '"b"'}, 412),
            ("GET", {"Range": "bytes=10000-"}, 416),
            ("DELETE", {}, 405),
            ("OPTIONS", {}, 204),
            ("BREW", {}, 501),
            ("GET", {"Expect": "x"}, 417),
            ("GET", {"Host": "a b"}, 400),
        ]
        for method, asked, wanted in cases:
            answer = ask(application, method, **asked)
            self.assertEqual((answer.status, answer.content), (wanted, b""), asked)
            self.assertEqual(answer.fields.get("content-length"), None if wanted in (204, 304) else "0", asked)

    def test_methods_are_performed_only_if_nothing_stands_in_the_way(self) -> None:
        performed = []

        def post(environ: Any) -> Result:
            performed.append(environ["wsgi.input"].read(int(environ["CONTENT_LENGTH"])))
            return Result(201, [("location", "/1")], b"made")

        posts, notes = Method("POST", "text/plain", needs_condition=True), [Representation(etag='"a"')]
        resource = Resource([posts], notes, limit=5)
        application = Serves(lambda environ: Served(resource, methods={"POST": post}))

        def send(**named: str) -> Tuple[int, bytes]:
            environ: Dict[str, Any] = {"REQUEST_METHOD": "POST", "CONTENT_TYPE": "text/plain", "CONTENT_LENGTH": "3",
                                       "HTTP_IF_MATCH": '"a"', **named}
            setup_testing_defaults(environ)
            environ["wsgi.input"] = io.BytesIO(b"tea")
            start_response = mock.Mock()
            content = b"".join(application(environ, start_response))
            return int(start_response.call_args[0][0][:3]), content

        for named, wanted in (({"CONTENT_TYPE": "text/html"}, 415), ({"CONTENT_LENGTH": "6"}, 413),
                              ({"HTTP_IF_MATCH": '"b"'}, 412), ({"CONTENT_LENGTH": "x"}, 400),
                              ({"HTTP_IF_MATCH": "*"}, 428)):
            self.assertEqual(send(**named)[0], wanted)
        self.assertEqual(performed, [])
        self.assertEqual((send(), performed), ((201, b"made"), [b"tea"]))

    def test_denied_requests(self) -> None:
        denied = Served(Resource(["GET"], PAGES), denied=Denied(429, retry_after=60))
        for method in ("GET", "HEAD", "PUT", "BREW"):
            answer = ask(validator(Serves(lambda environ: denied)), method)
            self.assertEqual((answer.status, answer.fields["retry-after"]), (429, "60"))

    def test_explanations(self) -> None:
        strict = Resource(["GET"], PAGES, by_media_type=True, is_strict=True)
        answer = ask(validator(Serves(lambda environ: Served(strict))), Accept="image/png")
        self.assertEqual((answer.status, answer.content), (406, b"text/html en\ntext/html de\ntext/html en gzip\n"))

        def explain(answer: ResourceAnswer, resource: Resource) -> Tuple[str, bytes]:
            return "text/plain", Reason(answer.reason).name.encode()

        application = validator(Serves(lambda environ: Served(strict), explain))
        self.assertEqual(ask(application, "PUT").content, b"METHOD_NOT_ALLOWED")
        self.assertEqual(ask(application, "OPTIONS").content, b"")
        self.assertEqual(ask(application, If_Match='"b"').fields["content-length"], "8")

    def test_a_method_that_nothing_performs(self) -> None:
        with self.assertRaises(LookupError):
            ask(Serves(lambda environ: Served(Resource(["PUT"]))), "PUT")

    def test_get_may_be_performed(self) -> None:
        methods = {"GET": lambda environ: Result(200, [("content-type", "text/plain")], b"now")}
        application = validator(Serves(lambda environ: Served(Resource(["GET"]), methods=methods)))
        self.assertEqual(ask(application).content, b"now")
        answer = ask(application, "HEAD")
        self.assertEqual((answer.content, answer.fields["content-length"]), (b"", "3"))


class Asynchronous(unittest.TestCase):
    """The same as an application of ASGI."""

    def application(self, kind: str = "bytes") -> asgi.Serves:
        async def later() -> AsyncIterator[bytes]:
            try:
                for piece in pieces_of(CONTENT, 999):
                    yield piece
            finally:
                self.closed += 1

        async def post(scope: asgi.Scope, receive: asgi.Receive) -> asgi.Result:
            return asgi.Result(201, [("location", "/1")], (await receive())["body"])

        async def find(scope: asgi.Scope) -> asgi.Served:
            contents: Dict[str, Union[bytes, List[bytes], AsyncIterator[bytes]]] = {"bytes": CONTENT, "list": list(pieces_of(CONTENT, 999)), "later": later()}
            shown = Representation("text/plain", len(CONTENT), '"a"')
            methods: List[Union[Method, str]] = ["GET", Method("POST", "text/plain")]
            return asgi.Served(Resource(methods, [shown]), lambda place: contents[kind], {"POST": post})

        self.closed = 0
        return asgi.Serves(find)

    def ask(self, application: Any, method: str = "GET", **asked: str) -> Answer:
        return by_asgi(application, method, {"Host": "a.example", **{it.replace("_", "-"): value for it, value in asked.items()}})

    def test_content_of_each_kind(self) -> None:
        for kind in ("bytes", "list", "later"):
            application = self.application(kind)
            with self.subTest(kind):
                answer = self.ask(application)
                self.assertEqual((answer.status, answer.content), (200, CONTENT))
                self.assertEqual(answer.fields["content-length"], "10000")
                answer = self.ask(application, Range="bytes=5000-")
                self.assertEqual((answer.status, answer.content), (206, CONTENT[5000:]))
                answer = self.ask(application, Range="bytes=0-9,9000-9009")
                self.assertEqual((answer.status, len(answer.content)), (206, int(answer.fields["content-length"])))
                self.assertEqual([it for _, it in answer.parts()], [CONTENT[:10], CONTENT[9000:9010]])
                answer = self.ask(application, "HEAD", Range="bytes=0-9")
                self.assertEqual((answer.status, answer.content, answer.fields["content-length"]), (200, b"", "10000"))
                self.assertEqual(self.closed, 3 if kind == "later" else 0)

    def test_what_the_resource_answers(self) -> None:
        application = self.application()
        cases: List[Tuple[str, Dict[str, str], int]] = [
            ("GET", {"If_None_Match": '"a"'}, 304),
            ("GET", {"If_Match": '"b"'}, 412),
            ("GET", {"Range": "bytes=10000-"}, 416),
            ("DELETE", {}, 405),
            ("OPTIONS", {}, 204),
            ("GET", {"Expect": "x"}, 417),
            ("POST", {"Content_Type": "text/html", "Content_Length": "1"}, 415),
            ("POST", {"Content_Type": "text/plain", "Content_Length": "x"}, 400),
        ]
        for method, asked, wanted in cases:
            answer = self.ask(application, method, **asked)
            self.assertEqual((answer.status, answer.content), (wanted, b""), asked)
            self.assertEqual(answer.fields.get("content-length"), None if wanted in (204, 304) else "0", asked)

    def test_denied_requests(self) -> None:
        async def find(scope: asgi.Scope) -> asgi.Served:
            return asgi.Served(Resource(["GET"], PAGES), denied=Denied(401, "Basic"))

        answer = self.ask(asgi.Serves(find), "PUT")
        self.assertEqual((answer.status, answer.fields["www-authenticate"]), (401, "Basic"))

    def test_methods(self) -> None:
        async def receive() -> Dict[str, Any]:
            return {"type": "http.request", "body": b"tea", "more_body": False}

        async def application(scope: Any, _: Any, send: Any) -> None:
            await self.application()(scope, receive, send)

        answer = self.ask(application, "POST", Content_Type="text/plain", Content_Length="3")
        self.assertEqual((answer.status, answer.content, answer.fields["location"]), (201, b"tea", "/1"))

        async def find(scope: asgi.Scope) -> asgi.Served:
            return asgi.Served(Resource(["PUT"]))

        with self.assertRaises(LookupError):
            self.ask(asgi.Serves(find), "PUT")
        with self.assertRaises(NotImplementedError):
            by_asgi(asgi.Serves(find), "GET", {}, {"type": "lifespan"})


class Frameworks(unittest.TestCase):
    """The application in Werkzeug's client, and mounted beside an application of Flask."""

    def module(self, name: str) -> Any:
        try:
            return importlib.import_module(name)
        except ImportError:
            self.skipTest(f"{name} isn't here")

    def test_werkzeug(self) -> None:
        client = self.module("werkzeug.test").Client(serves(tag='"a"'))
        response = client.get("/", headers={"If-None-Match": '"a"'})
        self.assertEqual((response.status_code, response.get_data()), (304, b""))
        response = client.get("/", headers={"Range": "bytes=1-3"})
        self.assertEqual((response.status_code, response.get_data()), (206, CONTENT[1:4]))
        response = client.post("/", data="tea", content_type="text/plain")
        self.assertEqual((response.status_code, response.headers["location"]), (201, "/1"))
        response = client.post("/", data="tea", content_type="text/html")
        self.assertEqual((response.status_code, response.headers["accept"]), (415, "text/plain"))
        self.assertEqual(client.put("/").headers["allow"], "GET, HEAD, POST, OPTIONS")

    def test_flask(self) -> None:
        flask = self.module("flask").Flask("tests")
        flask.add_url_rule("/", view_func=lambda: "of Flask")
        mount = self.module("werkzeug.middleware.dispatcher").DispatcherMiddleware
        flask.wsgi_app = mount(flask.wsgi_app, {"/files": serves()})
        client = flask.test_client()
        self.assertEqual(client.get("/").get_data(), b"of Flask")
        response = client.get("/files/a", headers={"Range": "bytes=1-3"})
        self.assertEqual((response.status_code, response.get_data()), (206, CONTENT[1:4]))
        self.assertEqual(client.delete("/files/a").status_code, 405)
