"""A server's connection without sockets: its events, its responses, and what it doesn't send."""

import copy
import gc
import random
import unittest
from typing import List, Optional, Sequence, Tuple, Type, Union

from typed_headers import HeaderError, InvalidField, TooLarge
from typed_headers.connection import (
    NEED_DATA,
    PAUSED,
    Connection,
    ConnectionClosed,
    Data,
    EndOfMessage,
    Event,
    Fields,
    LocalProtocolError,
    Rejected,
    Request,
    Response,
    State,
)

#: A request, and its response: the status, the fields and the pieces of the content.
Case = Tuple[bytes, int, Fields, Sequence[bytes]]

HOST = b"Host: a.example\r\n"
GET = b"GET / HTTP/1.1\r\n" + HOST + b"\r\n"
HEAD = b"HEAD / HTTP/1.1\r\n" + HOST + b"\r\n"
OLD = b"GET / HTTP/1.0\r\n\r\n"
END = b"Connection: close\r\nContent-Length: 0\r\n\r\n".lower()


def heads(*fields: bytes, first: bytes = b"POST / HTTP/1.1", content: bytes = b"") -> bytes:
    return b"\r\n".join([first, b"Host: a.example", *fields, b"", b""]) + content


def events_of(connection: Connection) -> List[Event]:
    """The events up to one that waits, or to the end."""
    events: List[Event] = []
    while True:
        event = connection.next_event()
        if event in (NEED_DATA, PAUSED):
            return events
        events.append(event)
        if isinstance(event, ConnectionClosed):
            return events


def answer(connection: Connection, status: int, fields: Fields = (), *pieces: bytes) -> bytes:
    connection.send(Response(status, fields))
    for piece in pieces:
        connection.send(Data(piece))
    connection.send(EndOfMessage())
    return connection.data_to_send()


def received(data: bytes, most_content: int = 1000) -> Tuple[Connection, List[Event]]:
    connection = Connection(most_content=most_content)
    connection.receive_data(data)
    return connection, events_of(connection)


def request(path: bytes = b"/", *fields: Tuple[bytes, bytes], method: bytes = b"GET", version: bytes = b"1.1",
            query: Optional[bytes] = None) -> Request:
    return Request(method, path, query, tuple(fields), version)


class Requests(unittest.TestCase):
    def one(self, data: bytes) -> Request:
        connection, events = received(data)
        self.assertIs(connection.next_event(), PAUSED)
        self.assertEqual(events[-1], EndOfMessage())
        assert isinstance(events[0], Request)
        return events[0]

    def test_head(self) -> None:
        connection, events = received(b"GET /a%20b?c=d HTTP/1.1\r\nHOST: a\r\nX:\t 1 2 \r\nA: \r\nx:3\r\n\r\n")
        fields = ((b"host", b"a"), (b"x", b"1 2"), (b"x", b"3"), (b"a", b""))
        self.assertEqual(events, [request(b"/a%20b", *fields, query=b"c=d"), EndOfMessage()])
        assert isinstance(events[0], Request)
        self.assertEqual(events[0].target, b"/a%20b?c=d")
        self.assertEqual(connection.our_state, State.SEND_RESPONSE)

    def test_targets(self) -> None:
        for target, path, query in (
            (b"/?", b"/", b""),
            (b"/\xc3\xa4", b"/\xc3\xa4", None),
            (b"http://b.example/x?y", b"/x", b"y"),
            (b"*", b"*", None),
        ):
            with self.subTest(target=target):
                head = self.one(b"OPTIONS " + target + b" HTTP/1.1\r\n" + HOST + b"\r\n")
                self.assertEqual((head.path, head.query), (path, query))

    def test_versions(self) -> None:
        self.assertEqual(self.one(OLD), request(version=b"1.0"))
        self.assertEqual(self.one(GET).http_version, b"1.1")

    def test_content_of_known_length(self) -> None:
        connection, events = received(heads(b"Content-Length: 10", content=b"12345"))
        self.assertEqual(events, [])
        connection.receive_data(b"67890")
        self.assertEqual(events_of(connection)[1:], [Data(b"1234567890"), EndOfMessage()])

    def test_content_in_chunks(self) -> None:
        connection, events = received(heads(b"Transfer-Encoding: chunked"))
        self.assertEqual(events, [])
        for piece in (b"5\r\nhello\r\n", b"5\r\nhel", b"l", b"o\r\n", b"5;x=y\r\nhello", b"\r\n"):
            connection.receive_data(piece)
            self.assertIs(connection.next_event(), NEED_DATA)
        connection.receive_data(b"0\r\nT: u\r\n\r\n")
        self.assertEqual(events_of(connection)[1:], [Data(b"hellohellohello"), EndOfMessage()])

    def test_100_continue(self) -> None:
        connection, events = received(heads(b"Content-Length: 3", b"Expect: 100-continue"))
        self.assertEqual((events, connection.data_to_send()), ([], b"HTTP/1.1 100 Continue\r\n\r\n"))
        connection.receive_data(b"abc")
        self.assertEqual(events_of(connection)[1:], [Data(b"abc"), EndOfMessage()])
        self.assertEqual(connection.data_to_send(), b"")

    def test_what_is_rejected(self) -> None:
        for data, status in (
            (b"gibberish\r\n\r\n", 400),
            (b"\x00", 400),
            (b" ", 400),
            (b"\x16\x03\x01\x00\xa5", 400),
            (b"GET / HTTP/1.1\r\n\r\n", 400),
            (b"GET / HTTP/1.1\nHost: a\n\n", 400),
            (b"GET / HTTP/1.2\r\n" + HOST + b"\r\n", 400),
            (b"PRI * HTTP/2.0\r\n\r\nSM\r\n\r\n", 400),
            (heads(b"A: b", b" folded"), 400),
            (b"GET / HTTP/1.1\r\n  folded: line\r\n\r\n", 400),
            (heads(b"foo  : line"), 400),
            (heads(b"foo\t: line"), 400),
            (heads(b": line"), 400),
            (heads(b"A: \x01"), 400),
            (heads(b"Content-Length: 5", b"Transfer-Encoding: chunked", content=b"0\r\n\r\n"), 400),
            (heads(b"Content-Length: 5, 5", content=b"12345"), 400),
            (heads(b"Content-Length: 5", b"Content-Length: 6"), 400),
            (heads(b"Content-Length: +5"), 400),
            (heads(b"Transfer-Encoding: gzip"), 400),
            (heads(b"Transfer-Encoding: gzip, chunked", content=b"0\r\n\r\n"), 501),
            (heads(b"Transfer-Encoding: chunked", content=b"g\r\n"), 400),
            (heads(b"Content-Length: 1001"), 413),
            (heads(b"Transfer-Encoding: chunked", content=b"3e9\r\n" + b"x" * 1001), 413),
            (b"GET /" + b"a" * 17000, 414),
            (b"GET / HTTP/1.0\r\nEndless: " + b"a" * 17000, 431),
        ):
            with self.subTest(data=data[:80]):
                connection, events = received(data)
                self.assertEqual(events, [Rejected(status), ConnectionClosed()])
                sent = connection.data_to_send()
                self.assertRegex(sent, rb"\AHTTP/1.1 %d [^\r\n]+\r\n" % status)
                self.assertTrue(sent.endswith(b"\r\n" + END))
                self.assertEqual((connection.data_to_send(), connection.our_state), (b"", State.CLOSED))
                connection.receive_data(GET)
                self.assertEqual(connection.next_event(), ConnectionClosed())
                with self.assertRaises(LocalProtocolError):
                    connection.send(Response(400))

    def test_limits(self) -> None:
        connection, events = received(heads(b"Content-Length: 10000", content=b"a" * 10000), most_content=10000)
        self.assertEqual(events[1:], [Data(b"a" * 10000), EndOfMessage()])
        self.assertEqual(len(self.one(heads(b"Big: " + b"a" * 16000)).headers), 2)
        for wrong in (-1, 1 << 64):
            with self.assertRaises(HeaderError):
                Connection(most_content=wrong)
            with self.assertRaises(HeaderError):
                Connection(most_held=wrong)

    def test_nothing_comes(self) -> None:
        connection = Connection()
        self.assertIs(connection.next_event(), NEED_DATA)
        connection.receive_data(b"\r\n")
        self.assertIs(connection.next_event(), NEED_DATA)
        self.assertEqual(connection.data_to_send(), b"")
        self.assertEqual(connection.our_state, State.IDLE)

    def test_the_client_ends(self) -> None:
        connection = Connection()
        connection.receive_data(b"")
        for _ in range(2):
            self.assertEqual(connection.next_event(), ConnectionClosed())
            connection.receive_data(b"")
        with self.assertRaises(LocalProtocolError):
            connection.receive_data(b"123")
        for data in (b"GET /", heads(b"Content-Length: 100", content=b"12345"),
                     heads(b"Transfer-Encoding: chunked", content=b"8\r\n012345")):
            connection = Connection()
            connection.receive_data(data)
            self.assertIs(connection.next_event(), NEED_DATA)
            connection.receive_data(b"")
            self.assertEqual(events_of(connection), [Rejected(400), ConnectionClosed()])

    def test_time_out(self) -> None:
        connection = Connection()
        self.assertIsNone(connection.time_out())
        connection.receive_data(b"GET / HTTP/1.1\r\nHo")
        self.assertIs(connection.next_event(), NEED_DATA)
        self.assertEqual(connection.time_out(), b"HTTP/1.1 408 Request Timeout\r\n" + END)
        connection.receive_data(b"st: a\r\n\r\n")
        self.assertEqual(len(events_of(connection)), 2)
        self.assertIsNone(connection.time_out())
        answer(connection, 200)
        self.assertIsNone(connection.time_out())


class Responses(unittest.TestCase):
    def sent(self, data: bytes, status: int, fields: Fields = (), *pieces: bytes) -> bytes:
        return answer(received(data)[0], status, fields, *pieces)

    def test_framing(self) -> None:
        length, chunked = (b"Content-Length", b"5"), (b"Transfer-Encoding", b"chunked")
        cases: List[Tuple[bytes, int, Fields, Sequence[bytes], bytes]] = [
            (GET, 200, [length], [b"he", b"llo"], b"HTTP/1.1 200 OK\r\ncontent-length: 5\r\n\r\nhello"),
            (GET, 200, [], [b"he", b"", b"llo"], b"HTTP/1.1 200 OK\r\ncontent-length: 5\r\n\r\nhello"),
            (GET, 200, [], [], b"HTTP/1.1 200 OK\r\ncontent-length: 0\r\n\r\n"),
            (GET, 200, [length, length], [b"hello"], b"HTTP/1.1 200 OK\r\ncontent-length: 5\r\n\r\nhello"),
            (GET, 200, [chunked], [b"he", b"llo"],
             b"HTTP/1.1 200 OK\r\ntransfer-encoding: chunked\r\n\r\n5\r\nhello\r\n0\r\n\r\n"),
            (GET, 200, [chunked, length], [b"hello"],
             b"HTTP/1.1 200 OK\r\ntransfer-encoding: chunked\r\n\r\n5\r\nhello\r\n0\r\n\r\n"),
            (GET, 204, [], [], b"HTTP/1.1 204 No Content\r\n\r\n"),
            (GET, 204, [(b"Content-Length", b"0")], [], b"HTTP/1.1 204 No Content\r\n\r\n"),
            (GET, 205, [], [], b"HTTP/1.1 205 Reset Content\r\ncontent-length: 0\r\n\r\n"),
            (GET, 304, [length], [], b"HTTP/1.1 304 Not Modified\r\ncontent-length: 5\r\n\r\n"),
            (GET, 299, [(b"A", b"b")], [], b"HTTP/1.1 299 \r\na: b\r\ncontent-length: 0\r\n\r\n"),
            (HEAD, 200, [length], [], b"HTTP/1.1 200 OK\r\ncontent-length: 5\r\n\r\n"),
            (HEAD, 200, [length], [b"he", b"llo"], b"HTTP/1.1 200 OK\r\ncontent-length: 5\r\n\r\n"),
            (HEAD, 200, [], [b"hello"], b"HTTP/1.1 200 OK\r\ncontent-length: 5\r\n\r\n"),
            (OLD, 200, [], [b"hello"], b"HTTP/1.0 200 OK\r\ncontent-length: 5\r\nconnection: close\r\n\r\nhello"),
            (GET, 200, [(b"Connection", b"close")], [b"x"],
             b"HTTP/1.1 200 OK\r\nconnection: close\r\ncontent-length: 1\r\n\r\nx"),
        ]
        for data, status, fields, pieces, wanted in cases:
            with self.subTest(data=data[:5], status=status, fields=fields, pieces=pieces):
                self.assertEqual(self.sent(data, status, fields, *pieces), wanted)

    def test_content_of_known_length_goes_out_as_it_comes(self) -> None:
        connection, _ = received(GET)
        connection.send(Response(200, [(b"Content-Length", b"6")]))
        self.assertEqual((connection.data_to_send(), connection.our_state), (b"", State.SEND_RESPONSE))
        connection.send(Data(b"ab"))
        self.assertEqual(connection.data_to_send(), b"HTTP/1.1 200 OK\r\ncontent-length: 6\r\n\r\nab")
        self.assertEqual(connection.our_state, State.SEND_BODY)
        connection.send(Data(b"cd"))
        self.assertEqual(connection.data_to_send(), b"cd")
        self.assertIs(connection.next_event(), PAUSED)
        connection.send(Data(b"ef"))
        connection.send(EndOfMessage())
        self.assertEqual((connection.data_to_send(), connection.our_state), (b"ef", State.IDLE))

    def test_other_content_is_held(self) -> None:
        connection = Connection(most_held=10)
        connection.receive_data(GET)
        events_of(connection)
        connection.send(Response(200))
        for _ in range(2):
            connection.send(Data(b"hello"))
        self.assertEqual(connection.data_to_send(), b"")
        with self.assertRaises(TooLarge):
            connection.send(Data(b"!"))
        too_late: Sequence[Union[Data, EndOfMessage]] = (Data(b"!"), EndOfMessage())
        for late in too_late:
            with self.assertRaises(LocalProtocolError):
                connection.send(late)
        self.assertEqual(answer(connection, 500), b"HTTP/1.1 500 Internal Server Error\r\ncontent-length: 0\r\n\r\n")
        # A stated length needs no room.
        connection.receive_data(GET)
        events_of(connection)
        self.assertTrue(answer(connection, 200, [(b"content-length", b"12")], b"hello, world").endswith(b"hello, world"))

    def test_a_wrong_length(self) -> None:
        cases: List[List[bytes]] = [[b"he"], [b"he", b"lloo"], [b"hello!"], []]
        for pieces in cases:
            with self.subTest(pieces=pieces):
                connection, _ = received(GET)
                with self.assertRaises(LocalProtocolError):
                    answer(connection, 200, [(b"Content-Length", b"5")], *pieces)
                self.assertEqual(connection.our_state, State.ERROR)
                self.assertNotIn(b"lloo", connection.data_to_send())
                self.assertEqual(connection.next_event(), ConnectionClosed())
                with self.assertRaises(LocalProtocolError):
                    connection.send(Response(200))

    def test_what_is_no_response(self) -> None:
        connection, _ = received(GET)
        cases: List[Tuple[int, Fields, Type[HeaderError]]] = [
            (1000, [], HeaderError),
            (99, [], HeaderError),
            (-1, [], HeaderError),
            (1 << 16, [], HeaderError),
            (200, [(b"a b", b"x")], HeaderError),
            (200, [(b"", b"x")], HeaderError),
            (200, [(b"a", b"x\r\ny: z")], InvalidField),
            (200, [(b"a", b"\x00")], InvalidField),
            (200, [(b"content-length", b"x")], InvalidField),
            (200, [(b"content-length", b"2, 2")], InvalidField),
            (200, [(b"content-length", b"2"), (b"Content-Length", b"3")], InvalidField),
        ]
        for status, fields, error in cases:
            with self.subTest(status=status, fields=fields):
                with self.assertRaises(error):
                    connection.send(Response(status, fields))
                with self.assertRaises(LocalProtocolError):
                    connection.send(EndOfMessage())
        # Nothing of them was sent, and another one may be.
        self.assertEqual(connection.data_to_send(), b"")
        self.assertEqual(answer(connection, 200, (), b"x"), b"HTTP/1.1 200 OK\r\ncontent-length: 1\r\n\r\nx")

    def test_a_response_in_place_of_another(self) -> None:
        connection, _ = received(GET)
        connection.send(Response(200, [(b"a", b"b")]))
        connection.send(Data(b"hello"))
        self.assertEqual(answer(connection, 404), b"HTTP/1.1 404 Not Found\r\ncontent-length: 0\r\n\r\n")

    def test_what_the_library_does_not_send(self) -> None:
        chunked = (b"Transfer-Encoding", b"chunked")
        connect = b"CONNECT a.example:443 HTTP/1.1\r\n" + HOST + b"\r\n"
        cases: List[Case] = [
            (GET, 100, [], []),
            (GET, 101, [], []),
            (GET, 103, [], []),
            (GET, 204, [], [b"x"]),
            (GET, 304, [], [b"x"]),
            (OLD, 200, [chunked], [b"x"]),
            (connect, 200, [], []),
        ]
        for data, status, fields, pieces in cases:
            with self.subTest(data=data[:7], status=status):
                connection, _ = received(data)
                with self.assertRaisesRegex(LocalProtocolError, "doesn't send"):
                    answer(connection, status, fields, *pieces)
                self.assertEqual((connection.data_to_send(), connection.our_state), (b"", State.ERROR))
                self.assertEqual(connection.next_event(), ConnectionClosed())
        self.assertTrue(self.sent(connect, 404).startswith(b"HTTP/1.1 404 "))

    def test_out_of_order(self) -> None:
        connection = Connection()
        sends: Sequence[Union[Response, Data, EndOfMessage]] = (Response(200), Data(b"x"), EndOfMessage())
        for event in sends:
            with self.assertRaises(LocalProtocolError):
                connection.send(event)
        connection.receive_data(GET)
        events_of(connection)
        for event in sends[1:]:
            with self.assertRaises(LocalProtocolError):
                connection.send(event)
        connection.send(Response(200, [(b"content-length", b"2")]))
        connection.send(Data(b"x"))
        with self.assertRaises(LocalProtocolError):
            connection.send(Response(200))
        connection.send(Data(b"y"))
        connection.send(EndOfMessage())
        for event in sends:
            with self.assertRaises(LocalProtocolError):
                connection.send(event)
        self.assertTrue(connection.data_to_send().endswith(b"\r\n\r\nxy"))


class Lives(unittest.TestCase):
    def test_kept_alive(self) -> None:
        connection = Connection()
        for number in range(20):
            connection.receive_data(b"GET /%d HTTP/1.1\r\n" % number + HOST + b"\r\n")
            self.assertEqual(events_of(connection)[0], request(b"/%d" % number, (b"host", b"a.example")))
            self.assertTrue(answer(connection, 200, (), b"%d" % number).endswith(b"\r\n\r\n%d" % number))
            self.assertIs(connection.next_event(), NEED_DATA)
        for data, kept in (
            (heads(b"Connection: close", first=b"GET / HTTP/1.1"), False),
            (OLD, False),
            (b"GET / HTTP/1.0\r\nConnection: keep-alive\r\n\r\n", True),
        ):
            with self.subTest(data=data):
                connection, _ = received(data)
                sent = answer(connection, 204)
                self.assertEqual(b"connection: close" in sent, not kept)
                self.assertEqual(connection.next_event(), NEED_DATA if kept else ConnectionClosed())
                self.assertEqual(connection.our_state, State.IDLE if kept else State.CLOSED)

    def test_pipelined(self) -> None:
        connection, events = received(
            heads(b"Content-Length: 5", first=b"PUT /1 HTTP/1.1", content=b"12345")
            + heads(b"Content-Length: 5", first=b"PUT /2 HTTP/1.1", content=b"67890")
            + heads(first=b"GET /3 HTTP/1.1")
        )
        for number, content in ((1, b"12345"), (2, b"67890"), (3, b"")):
            assert isinstance(events[0], Request)
            self.assertEqual(events[0].path, b"/%d" % number)
            self.assertEqual(events[1:], [Data(content), EndOfMessage()] if content else [EndOfMessage()])
            self.assertIs(connection.next_event(), PAUSED)
            answer(connection, 200)
            if number < 3:
                events = events_of(connection)
        self.assertIs(connection.next_event(), NEED_DATA)

    def test_what_comes_during_a_response(self) -> None:
        connection, _ = received(GET)
        connection.receive_data(GET)
        connection.receive_data(b"GET /2")
        self.assertEqual(connection.trailing_data, (GET + b"GET /2", False))
        connection.receive_data(b"")
        self.assertEqual(connection.trailing_data, (GET + b"GET /2", True))
        self.assertIs(connection.next_event(), PAUSED)
        with self.assertRaises(LocalProtocolError):
            connection.receive_data(b"x")
        answer(connection, 200)
        self.assertEqual(len(events_of(connection)), 2)
        self.assertEqual(connection.trailing_data, (b"", True))
        answer(connection, 200)
        self.assertEqual(events_of(connection), [Rejected(400), ConnectionClosed()])

    def test_pipelined_and_ended(self) -> None:
        connection, events = received(GET + GET)
        connection.receive_data(b"")
        for _ in range(2):
            self.assertEqual(len(events), 2)
            answer(connection, 200)
            events = events_of(connection)
        self.assertEqual(events, [ConnectionClosed()])

    def test_nothing_follows_the_last_response(self) -> None:
        connection, _ = received(heads(b"Connection: close", first=b"GET / HTTP/1.1") + GET)
        answer(connection, 200)
        self.assertEqual(events_of(connection), [ConnectionClosed()])

    def test_closed(self) -> None:
        connection, _ = received(GET)
        connection.close()
        connection.close()
        self.assertEqual((connection.next_event(), connection.our_state), (ConnectionClosed(), State.CLOSED))
        self.assertEqual(connection.data_to_send(), b"")
        self.assertIsNone(connection.time_out())
        with self.assertRaises(LocalProtocolError):
            connection.send(Response(200))
        connection = Connection()
        connection.close()
        self.assertEqual(connection.next_event(), ConnectionClosed())

    def test_many(self) -> None:
        connections = [received(GET + GET)[0] for _ in range(1000)]
        self.assertTrue(all(answer(it, 204) for it in connections))
        del connections[::2]
        gc.collect()
        self.assertTrue(all(events_of(it) and answer(it, 204) for it in connections))
        with self.assertRaises(TypeError):
            copy.deepcopy(connections[0])


#: Requests of a corpus: most are kept alive.
GOOD = (
    GET,
    b"GET /a?b=c HTTP/1.1\r\nHost: a\r\nAccept: x\r\nAccept: y\r\n\r\n",
    HEAD,
    heads(b"Content-Length: 5", content=b"12345"),
    heads(b"Transfer-Encoding: chunked", content=b"3\r\nabc\r\n2;x=y\r\nde\r\n0\r\nT: z\r\n\r\n"),
    heads(b"Expect: 100-continue", b"Content-Length: 2", content=b"ab"),
    b"\r\nGET /e HTTP/1.0\r\nConnection: keep-alive\r\n\r\n",
)
BAD = (
    OLD,
    heads(b"Connection: close"),
    b"GET /g HTTP/1.1\r\n\r\n",
    heads(b"A: \x01"),
    heads(b"Content-Length: 2000"),
    heads(b"Transfer-Encoding: chunked", content=b"x\r\n"),
    b"x" * 400,
)


class Cuts(unittest.TestCase):
    def exchange(self, pieces: Sequence[bytes], chooses: random.Random) -> Tuple[List[Event], bytes]:
        """The events and what is sent. Each request is answered by what it says, at a time of its own."""
        connection, events, sent = Connection(most_content=1000), [], b""
        left = list(pieces) + [b""]
        waits = content = b""
        while True:
            event = connection.next_event()
            sent += connection.data_to_send()
            if event is NEED_DATA or (event is PAUSED and left and chooses.random() < 0.5):
                connection.receive_data(left.pop(0))
                continue
            if event is not PAUSED:
                events.append(event)
            if isinstance(event, ConnectionClosed):
                return events, sent
            if isinstance(event, Request):
                waits, content = event.method + b" " + event.target + b" %d" % len(event.headers), b""
            elif isinstance(event, Data):
                content = event.data
            elif event is PAUSED:
                stated = [(b"content-length", b"%d" % len(waits + content))] if len(content) % 2 else []
                connection.send(Response(200, stated))
                connection.send(Data(waits))
                sent += connection.data_to_send() if chooses.random() < 0.5 else b""
                connection.send(Data(content))
                connection.send(EndOfMessage())
                sent += connection.data_to_send()

    def test_the_same_events_for_any_cuts(self) -> None:
        chooses = random.Random(1)
        bytes_sent = 0
        for number in range(2000):
            picked = chooses.choices(GOOD, k=chooses.randint(1, 6))
            if chooses.random() < 0.5:
                picked.append(chooses.choice(BAD + GOOD))
            corpus = b"".join(picked)
            corpus = corpus[: len(corpus) - (chooses.randrange(len(corpus)) if chooses.random() < 0.25 else 0)]
            whole = self.exchange([corpus] if corpus else [], chooses)
            pieces, at, most = [], 0, chooses.choice((1, 5, 40, 200))
            while at < len(corpus):
                size = chooses.randint(1, most)
                pieces.append(corpus[at : at + size])
                at += size
            cut = self.exchange(pieces, chooses)
            with self.subTest(number=number, corpus=corpus):
                self.assertEqual(cut, whole)
            bytes_sent += len(whole[1])
        self.assertGreater(bytes_sent, 200_000)


class BesideH11(unittest.TestCase):
    """The same requests as h11 finds, where both take them."""

    def test_the_same_requests(self) -> None:
        try:
            import h11
        except ImportError as error:
            self.skipTest(f"h11 isn't installed: {error}")
        chooses = random.Random(2)
        empty: List[Tuple[bytes, bytes]] = []
        for _ in range(300):
            corpus = b"".join(chooses.choices(GOOD[:-1], k=chooses.randint(1, 5)))
            theirs, own = h11.Connection(h11.SERVER), Connection()
            theirs.receive_data(corpus)
            own.receive_data(corpus)
            found: List[List[Tuple[object, ...]]] = [[], []]
            while True:
                event = theirs.next_event()
                if event is h11.NEED_DATA:
                    break
                if isinstance(event, h11.Request):
                    fields = sorted((bytes(name), bytes(value)) for name, value in event.headers)
                    found[0].append((bytes(event.method), bytes(event.target), fields, b""))
                elif isinstance(event, h11.Data):
                    found[0][-1] = (*found[0][-1][:3], bytes(found[0][-1][3]) + bytes(event.data))  # type: ignore[call-overload]
                elif isinstance(event, h11.EndOfMessage):
                    theirs.send(h11.Response(status_code=204, headers=empty))
                    theirs.send(h11.EndOfMessage())
                    theirs.start_next_cycle()
            while True:
                mine = own.next_event()
                if mine is NEED_DATA:
                    break
                if isinstance(mine, Request):
                    found[1].append((mine.method, mine.target, sorted(mine.headers), b""))
                elif isinstance(mine, Data):
                    found[1][-1] = (*found[1][-1][:3], mine.data)
                elif mine is PAUSED:
                    answer(own, 204)
            self.assertEqual(found[1], found[0])


if __name__ == "__main__":
    unittest.main()
