"""A connection of an HTTP/1.1 server that opens no socket (RFC 9112), in the shape of h11.

The library parses the requests, frames the responses, and says when the connection ends. This module passes bytes to it
and from it.

>>> connection = Connection()
>>> connection.receive_data(b"GET /a?b HTTP/1.1\\r\\nHost: a.example\\r\\n\\r\\n")
>>> connection.next_event()
Request(method=b'GET', path=b'/a', query=b'b', headers=((b'host', b'a.example'),), http_version=b'1.1')
>>> connection.next_event()
EndOfMessage()
>>> connection.send(Response(200, [(b"content-type", b"text/plain")]))
>>> connection.send(Data(b"hello"))
>>> connection.send(EndOfMessage())
>>> connection.data_to_send()
b'HTTP/1.1 200 OK\\r\\ncontent-type: text/plain\\r\\ncontent-length: 5\\r\\n\\r\\nhello'
>>> connection.next_event()
<Waiting.NEED_DATA: 0>
"""

from collections import deque
from dataclasses import dataclass
from enum import Enum, IntEnum
from functools import partial
from typing import Deque, List, Optional, Sequence, Tuple, Union

from . import _library
from ._checks import check_members
from ._library import made
from .errors import HeaderError, TooLarge

__all__ = [
    "Connection",
    "ConnectionClosed",
    "Data",
    "EndOfMessage",
    "LocalProtocolError",
    "NEED_DATA",
    "PAUSED",
    "Rejected",
    "Request",
    "Response",
    "State",
    "Waiting",
]

#: The fields of a message. Names of requests are in lower case, and the lines of one name come together.
Fields = Sequence[Tuple[bytes, bytes]]


class LocalProtocolError(RuntimeError):
    """What the program does isn't possible: it is out of order, or the library doesn't send such a response."""


@dataclass(frozen=True)
class Request:
    """The head of a request."""

    method: bytes
    #: The path of its target, with its percent-encoding.
    path: bytes
    #: The query of its target, or `None` if that has none.
    query: Optional[bytes]
    headers: Tuple[Tuple[bytes, bytes], ...]
    #: `b"1.1"` or `b"1.0"`.
    http_version: bytes

    def __post_init__(self) -> None:
        check_members(self)

    @property
    def target(self) -> bytes:
        """The path and the query."""
        return self.path if self.query is None else self.path + b"?" + self.query


@dataclass(frozen=True)
class Response:
    """The head of a response. The library adds Content-Length and Connection where they are needed."""

    status_code: int
    headers: Fields = ()

    def __post_init__(self) -> None:
        check_members(self)


@dataclass(frozen=True)
class Data:
    """Content: all of a request's, or a piece of a response's."""

    data: bytes

    def __post_init__(self) -> None:
        check_members(self)


@dataclass(frozen=True)
class EndOfMessage:
    """The message has ended."""


@dataclass(frozen=True)
class Rejected:
    """What was received is no request. The response that says so is in `Connection.data_to_send`."""

    #: The status of that response, as 400.
    status: int

    def __post_init__(self) -> None:
        check_members(self)


@dataclass(frozen=True)
class ConnectionClosed:
    """The connection has ended: send what is to be sent, and close it."""


class Waiting(Enum):
    """What the next event waits for."""

    #: Bytes of the client.
    NEED_DATA = 0
    #: The end of the response.
    PAUSED = 1


NEED_DATA, PAUSED = Waiting.NEED_DATA, Waiting.PAUSED


class State(Enum):
    """What the program may send."""

    #: Nothing: no request waits for a response.
    IDLE = 0
    #: `Response`. Also after it, while nothing of the response is on its way: then another one takes its place.
    SEND_RESPONSE = 1
    #: The rest of the content, and `EndOfMessage`.
    SEND_BODY = 2
    #: Nothing: the connection has ended.
    CLOSED = 3
    #: Nothing: the connection failed. Close it.
    ERROR = 4


Event = Union[Request, Data, EndOfMessage, Rejected, ConnectionClosed, Waiting]


class _Wants(IntEnum):
    INPUT = 0
    REQUEST = 1
    OUTPUT = 2
    CLOSED = 3
    ABORTED = 4


_DONE, _REFUSED = int(_library.Status.DONE), int(_library.Status.REFUSED)
_MOST = 16 * 1024 * 1024
_PIECE = 64 * 1024
_VERSIONS = {10: b"1.0", 11: b"1.1"}
_CONTENT_LENGTH = b"content-length"


class Connection:
    """One connection of an HTTP/1.1 server, for one thread at a time.

    Pass what the client sends to `receive_data`, act on each `next_event`, `send` a response to each request, and write
    `data_to_send` after each of these. A request comes once all of its content has: a content of more than
    `most_content` bytes is rejected. A response whose `Content-Length` is known goes out piece by piece. The pieces of
    any other are held until its end, `most_held` bytes at most.
    """

    def __init__(self, *, most_content: int = _MOST, most_held: int = _MOST) -> None:
        self._most_held = _library.to_number(most_held, "most_held")
        status, self._handle = _library.calls.connection_new(_library.to_number(most_content, "most_content"))
        _library.check(status, lambda: LocalProtocolError("a connection is open"))
        #: What the program may send.
        self.our_state = State.IDLE
        self._input: List[bytes] = []
        self._has_ended = False
        self._output: List[bytes] = []
        self._events: Deque[Event] = deque()
        # Of the response, once its head is planned: its stated length, and what is held.
        self._is_planned = False
        self._length: Optional[int] = None
        self._held: List[bytes] = []
        self._held_length = 0
        # Whether the content of the response is sent at all, and then by the program.
        self._sends_content = False

    # What the client sends

    def receive_data(self, data: bytes) -> None:
        """Takes bytes of the client. `b""` says that it ended its side."""
        if not data:
            self._has_ended = True
        elif self._has_ended:
            raise LocalProtocolError("the client has ended its side")
        elif self.our_state not in (State.CLOSED, State.ERROR):
            self._input.append(bytes(data))

    @property
    def trailing_data(self) -> Tuple[bytes, bool]:
        """The bytes that the library hasn't taken yet, and whether the client has ended its side."""
        return b"".join(self._input), self._has_ended

    def next_event(self) -> Event:
        """What happens next. `MemoryError` if memory ran out: the connection has ended."""
        if self._events:
            return self._events.popleft()
        if self.our_state in (State.CLOSED, State.ERROR):
            return ConnectionClosed()
        if self.our_state != State.IDLE:
            return PAUSED
        wants = self._advance()
        while wants == _Wants.INPUT:
            if self._input:
                received = b"".join(self._input)
                _library.check(_library.calls.connection_receive(self._handle, received), _out_of_order)
                self._input.clear()
            elif self._has_ended:
                _library.check(_library.calls.connection_finish_input(self._handle), _out_of_order)
            else:
                return NEED_DATA
            wants = self._advance()
        if wants == _Wants.REQUEST:
            self._ask()
        elif wants == _Wants.CLOSED:
            self._close(State.CLOSED)
        else:
            self._close(State.ERROR)
            raise MemoryError
        return self._events.popleft()

    def _advance(self) -> int:
        """Takes what is to be sent, until the connection wants something else, or content of the response."""
        while True:
            status, wants = _library.calls.connection_next(self._handle)
            if status:
                return _Wants.CLOSED
            if not self._take() or wants != _Wants.OUTPUT:
                return wants

    def _take(self) -> bool:
        """Takes what is to be sent, and returns whether there was something."""
        has_taken = False
        while True:
            piece = _library.calls.connection_output(self._handle, _PIECE)[1]
            if not piece:
                return has_taken
            self._output.append(piece)
            _library.calls.connection_sent(self._handle, len(piece))
            has_taken = True

    def _ask(self) -> None:
        calls, handle = _library.calls, self._handle
        texts = []
        for call in (calls.connection_method, calls.connection_path, calls.connection_query, calls.connection_fields):
            status, text = call(handle)
            _library.check(status, _out_of_order)
            texts.append(None if status == _library.ABSENT else text)
        method, path, query, lines = texts
        assert method is not None and path is not None and lines is not None
        fields = []
        for line in lines.split(b"\n")[:-1]:
            name, _, value = line.partition(b": ")
            fields.append((name, value))
        version = _VERSIONS[calls.connection_version(handle)[1]]
        content = calls.connection_content(handle)[1]
        head = made(Request, method=method, path=path, query=query, headers=tuple(fields), http_version=version)
        self._events.append(head)
        if content:
            self._events.append(made(Data, data=content))
        self._events.append(EndOfMessage())
        self.our_state = State.SEND_RESPONSE

    def _close(self, state: State) -> None:
        status, rejection = _library.calls.connection_rejection(self._handle)
        if status == _DONE:
            self._events.append(made(Rejected, status=rejection))
        self._events.append(ConnectionClosed())
        self.our_state = state

    # What the program sends

    def send(self, event: Union[Response, Data, EndOfMessage]) -> None:
        """Sends the head, a piece of the content, or the end of the response to the request that waits.

        `HeaderError` if the status or a field is invalid, and `TooLarge` if more is held than may be: nothing of the
        response was sent then, and another one may be. `LocalProtocolError` if the event is out of order, or if the
        library doesn't send such a response, as 101: the connection has failed then, and `our_state` is `ERROR`.
        """
        if isinstance(event, Response):
            self._plan(event)
        elif isinstance(event, Data):
            self._send_data(event.data)
        else:
            self._end()

    def _plan(self, head: Response) -> None:
        if self.our_state != State.SEND_RESPONSE:
            raise _wrong_time("Response", self.our_state)
        self._is_planned = False
        calls, handle = _library.calls, self._handle
        if calls.connection_plan(handle, _library.to_number(head.status_code, "status_code", 16)):
            raise HeaderError(f"status_code: {head.status_code} isn't from 100 to 999")
        lengths = []
        for name, value in head.headers:
            if name.lower() == _CONTENT_LENGTH:
                # (the library adds it to a response with content)
                lengths.append(value)
                continue
            status = calls.connection_plan_field(handle, name, value)
            if status:
                _library.check(status, partial(_wrong_field, name, value))
        self._length = _library.number(calls.content_length, "content-length", tuple(lengths)) if lengths else None
        self._held.clear()
        self._held_length = 0
        self._is_planned = True

    def _send_data(self, data: bytes) -> None:
        if not self._is_planned:
            raise _wrong_time("Data", self.our_state)
        if not data:
            return
        if self.our_state == State.SEND_RESPONSE:
            if self._length is None:
                if self._held_length + len(data) > self._most_held:
                    self._is_planned = False
                    self._held.clear()
                    raise TooLarge(
                        f"content: without Content-Length at most {self._most_held} bytes can be held, as its length "
                        "is sent before it"
                    )
                self._held_length += len(data)
                self._held.append(bytes(data))
                return
            self._respond(self._length)
        self._send_piece(bytes(data))

    def _respond(self, length: int) -> None:
        """Responds by the plan, with so much content, which the program sends by itself."""
        if length:
            _library.check(_library.calls.connection_plan_range(self._handle, 0, length), _out_of_order)
        _library.check(_library.calls.connection_respond(self._handle), _out_of_order)
        self.our_state = State.SEND_BODY
        if self._advance() == _Wants.ABORTED:
            self._close(State.ERROR)
            raise LocalProtocolError(
                "the library doesn't send this response: memory ran out, or the status and the fields allow no such content"
            )
        self._sends_content = _library.calls.connection_range(self._handle)[0] == _DONE

    def _send_piece(self, data: bytes) -> None:
        # (the content of a response to HEAD isn't sent)
        if self._sends_content:
            if _library.calls.connection_sent(self._handle, len(data)) == _REFUSED:
                self._close(State.ERROR)
                raise LocalProtocolError("the content is longer than Content-Length says")
            self._output.append(data)

    def _end(self) -> None:
        if not self._is_planned:
            raise _wrong_time("EndOfMessage", self.our_state)
        if self.our_state == State.SEND_RESPONSE:
            if self._length and not self._held:
                # (as to HEAD, and with 304)
                length = b"%d" % self._length
                _library.check(
                    _library.calls.connection_plan_field(self._handle, _CONTENT_LENGTH, length), _out_of_order
                )
            self._respond(self._held_length)
            for piece in self._held:
                self._send_piece(piece)
            self._held.clear()
        if self._sends_content and _library.calls.connection_range(self._handle)[0] == _DONE:
            self._close(State.ERROR)
            raise LocalProtocolError("the content is shorter than Content-Length says")
        self._is_planned = False
        self.our_state = State.IDLE
        self._advance()

    def data_to_send(self) -> bytes:
        """What is to be written to the client next. It counts as written."""
        if self.our_state != State.ERROR:
            self._take()
        sent = b"".join(self._output)
        self._output.clear()
        return sent

    # The end

    def time_out(self) -> Optional[bytes]:
        """The response 408 to a client that is too slow with the rest of its request. Write it, and close.

        `None` if no request has begun: then only close.
        """
        status, text = _library.calls.connection_time_out(self._handle)
        return None if status else text

    def close(self) -> None:
        """Gives the memory of the connection back."""
        _library.calls.connection_free(self._handle)
        self._input.clear()
        self._events.clear()
        self._held.clear()
        if self.our_state != State.ERROR:
            self.our_state = State.CLOSED


def _out_of_order() -> Exception:
    return LocalProtocolError("the connection is in use elsewhere")


def _wrong_time(name: str, state: State) -> LocalProtocolError:
    return LocalProtocolError(f"{name} can't be sent now: the state is {state.name}")


def _wrong_field(name: bytes, value: bytes) -> HeaderError:
    if not _library.is_token(name):
        return HeaderError(f"headers: {_library.to_str(name)!r} is no field name (RFC 9110, section 5.1)")
    return _library.rejected(_library.to_str(name.lower()), [value], "a byte is none of a field value")
