"""What is made by hand for a decision, or in place of its result: each member's type is checked as it is made."""

import importlib
import pickle
import unittest
from dataclasses import fields, is_dataclass
from typing import Any, Dict

import typed_headers as it
from typed_headers import asgi, audit, connection, inspection, wsgi

FIELDS = (("a", "b"),)
HEAD = inspection.Head("GET", None, "GET / HTTP/1.1", b"a: b\n")
REPORT = inspection.FieldReport("a", ("b",), False, ("b",))
#: The members of a value of each type.
MADE: Dict[Any, Dict[str, Any]] = {
    it.Answer: {"reason": it.Reason.ADMITTED, "status": 206, "sends": it.Sends.PARTS, "place": 0,
                "ranges": (it.ByteRange(0, 4),), "fields": FIELDS, "owns": frozenset(("a",))},
    it.Ask: {"fields": FIELDS, "alone": ("a",)},
    it.ByteRange: {"first": 0, "last": 4},
    it.Content: {"length": 5, "media_type": it.MediaType("text", "html"), "sends_ranges": True},
    it.CorsAnswer: {"kind": it.CorsKind.PLAIN, "is_allowed": True, "fields": FIELDS},
    it.CorsPolicy: {"origins": ("https://a.example",), "methods": ("PUT",), "headers": ("a",), "exposed": ("b",),
                    "max_age": 5, "credentials": True},
    it.Denied: {"status": 401, "challenge": "Basic", "retry_after": 5},
    it.Framing: {"kind": it.FramingKind.LENGTH, "length": 5},
    it.FramingOutcome: {"framing": None, "status": 400, "reason": it.Rejection.LENGTH_AND_CODING},
    it.Gateway: {"name": "gw", "protected": ("a",), "consumes_credentials": True, "passes_underscores": False},
    it.Handshake: {"status": 400, "fault": it.Fault.NO_KEY, "fields": FIELDS},
    it.Hop: {"client": "192.0.2.1", "client_port": 80, "interface": "_p", "interface_port": 81, "server_version": 10,
             "is_secure": True, "is_trusted": True, "writes_forwarded": True, "writes_x_forwarded": True,
             "tells_host": True, "closes": True, "accepts_trailers": True},
    it.Method: {"name": "PUT", "accept": ("text/plain",), "accept_encoding": "gzip", "creates": True,
                "needs_condition": True},
    it.PassOn: {"stores": True},
    it.Quality: {"weight": 1000, "is_acceptable": True},
    it.Reply: {"status": 200, "fields": FIELDS, "content": b"a", "validates": True},
    it.Representation: {"media_type": "text/plain", "length": 5, "etag": it.ETag("a"), "last_modified": 5,
                        "language": "en", "coding": "gzip", "sends_ranges": False, "is_date_strong": True},
    it.RequestOutcome: {"action": it.Action.FORWARD, "framing": it.Framing(it.FramingKind.CHUNKED), "fields": FIELDS,
                        "status": None, "reason": None, "sends_continue": True},
    it.Resource: {"methods": (it.Method("GET"),), "representations": (it.Representation(),), "state": it.State.CURRENT,
                  "location": "/", "hosts": ("a",), "by_media_type": True, "by_language": True, "by_coding": True,
                  "is_strict": True, "boundary": "a", "needs_length": True, "limit": 5,
                  "cors": it.CorsPolicy("https://a.example"), "implemented": ("PUT",), "has_strong_dates": True},
    it.Response: {"status": 206, "ranges": (it.ByteRange(0, 4),), "fields": FIELDS, "keeps_encoding": True},
    it.ResponseOutcome: {"action": it.Action.FORWARD, "received": it.Framing(it.FramingKind.CHUNKED),
                         "sent": it.Framing(it.FramingKind.CHUNKED), "fields": FIELDS, "status": None, "reason": None},
    it.Selection: {"status": 206, "ranges": (it.ByteRange(0, 4),)},
    it.Target: {"etag": it.ETag("a"), "last_modified": 5, "exists": True, "is_date_strong": True},
    it.Times: {"request": 1, "response": 2, "now": 3},
    it.Wait: {},
    asgi.Result: {"status": 200, "fields": FIELDS, "content": b"a"},
    asgi.Served: {"resource": it.Resource(["GET"]), "content": bytes, "methods": {}, "denied": None},
    audit.Exchange: {"url": "a", "response": b"a: b", "request": b"", "received": 5},
    connection.ConnectionClosed: {},
    connection.Data: {"data": b"a"},
    connection.EndOfMessage: {},
    connection.Rejected: {"status": 400},
    connection.Request: {"method": b"GET", "path": b"/", "query": None, "headers": ((b"a", b"b"),),
                         "http_version": b"1.1"},
    connection.Response: {"status_code": 200, "headers": ((b"a", b"b"),)},
    inspection.CacheReport: {"may_store": True, "lifetime": 5, "age": 0, "decision": it.Decision.SERVE},
    inspection.CorsReport: {"allow_origin": "*", "allow_credentials": None, "expose_headers": "a", "allow_methods": "a",
                            "allow_headers": "a", "max_age": "5"},
    inspection.FieldReport: {"name": "a", "lines": ("b",), "is_known": False, "canonical": ("b",), "error": None,
                             "line": 0, "byte": 1},
    inspection.Head: {"method": "GET", "status": None, "start": "GET / HTTP/1.1", "section": b"a: b\n",
                      "wrong": ((1, "x"),)},
    inspection.Report: {"head": HEAD, "fields": (REPORT,), "browser_cache": None, "shared_cache": None, "cors": None,
                        "validators": None, "ranges": FIELDS, "selection": it.Selection(200),
                        "precondition": it.Precondition.PERFORM, "notes": ("a",)},
    inspection.ValidatorReport: {"etag": '"a"', "is_weak": False, "last_modified": None, "fields": FIELDS},
    wsgi.Result: {"status": 200, "fields": FIELDS, "content": b"a"},
    wsgi.Served: {"resource": it.Resource(["GET"]), "content": bytes, "methods": {}, "denied": None},
}
WRONG: Any = object()


class Members(unittest.TestCase):
    def test_no_type_is_left_out(self) -> None:
        modules = [it, *(importlib.import_module(f"typed_headers.{name}") for name in (
            "asgi", "audit", "caching", "conditions", "connection", "cors", "gateway", "inspection", "negotiation",
            "resource", "websocket", "wsgi"))]
        found = {value for module in modules for value in vars(module).values()
                 if isinstance(value, type) and is_dataclass(value) and not value.__name__.startswith("_")}
        # (test_each_field.py has those of fields; counts grow, and `_exchange` is the package's own)
        others = {value for value in found if value.__module__.rpartition(".")[2] in ("values", "parts", "_exchange")}
        self.assertEqual(found - others - {audit.Counts}, set(MADE) - {it.ByteRange})
        for kind, members in MADE.items():
            self.assertEqual(list(members), [member.name for member in fields(kind)], kind)

    def test_each_member_is_checked(self) -> None:
        for kind, members in MADE.items():
            with self.subTest(kind.__name__):
                value = kind(**members)
                self.assertEqual({name: getattr(value, name) for name in members}, members)
                self.assertEqual(pickle.loads(pickle.dumps(value)), value)
                for name in members:
                    with self.assertRaisesRegex(TypeError, f"^{name}: expected .*, not object$"):
                        kind(**{**members, name: WRONG})

    def test_members_of_members(self) -> None:
        for kind, members in MADE.items():
            for name, member in members.items():
                if isinstance(member, (tuple, frozenset)) and (kind, name) not in _LOOKED_AT_ONCE:
                    with self.subTest(f"{kind.__name__}.{name}"):
                        with self.assertRaisesRegex(TypeError, f"^{name}: expected .*, not object$"):
                            kind(**{**members, name: [WRONG]})
                        self.assertEqual(getattr(kind(**{**members, name: [*member]}), name), member)

    def test_texts_are_no_lists(self) -> None:
        wrong: Any = "ab"
        for make in (
            lambda: it.Selection(206, wrong),
            lambda: it.Resource(["GET"], hosts=wrong),
            lambda: it.Response(200, (), wrong, True),
            lambda: it.Ask(wrong),
            lambda: wsgi.Result(200, wrong),
            lambda: wsgi.Result(200, (), wrong),
        ):
            with self.assertRaisesRegex(TypeError, "expected .*several .*, not str"):
                make()
        with self.assertRaisesRegex(TypeError, r"fields: expected \(str, str\), not tuple"):
            it.CorsAnswer(it.CorsKind.PLAIN, True, (("a", "b", "c"),))  # type: ignore[arg-type]

    def test_flags(self) -> None:
        """A text from a file of settings is true, whatever it says, and a number is no flag."""
        for kind, members in MADE.items():
            for name in (member.name for member in fields(kind) if member.type in (bool, "bool")):
                for wrong in ("false", 1):
                    with self.assertRaisesRegex(TypeError, f"^{name}: expected bool, not {type(wrong).__name__}"):
                        kind(**{**members, name: wrong})

    def test_constants(self) -> None:
        number: Any
        for number, state in ((301, it.State.MOVED_PERMANENTLY), (it.State.GONE, it.State.GONE)):
            self.assertIs(it.Resource(["GET"], state=number, location="/").state, state)
        number = 5
        with self.assertRaisesRegex(it.HeaderError, "state: 5 is no State"):
            it.Resource(["GET"], state=number)


#: What may be looked at once alone, so that the policy or the gateway finds fault with it as it reads it.
_LOOKED_AT_ONCE = {
    *((it.CorsPolicy, name) for name in ("origins", "methods", "headers", "exposed")), (it.Gateway, "protected")
}
