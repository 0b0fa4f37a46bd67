"""uvicorn over the library's parsing and framing: `python3 -m typed_headers.uvicorn app:app`, with uvicorn's options.

In a program it is `uvicorn.run(app, http=Protocol)`. The content of a request reaches the application once all of it has come. A response without Content-Length is held until
its end, as its length is sent before its content: so a stream that never ends, as of server-sent events, never begins.
"""

import asyncio
import logging
from typing import Any, Awaitable, Callable, Dict, List, MutableMapping, Optional, Tuple, cast
from urllib.parse import unquote_to_bytes

from uvicorn import main
from uvicorn.logging import TRACE_LOG_LEVEL
from uvicorn.protocols.http.flow_control import HIGH_WATER_LIMIT, FlowControl, service_unavailable
from uvicorn.protocols.utils import (
    get_client_addr,
    get_local_addr,
    get_path_with_query_string,
    get_remote_addr,
    is_ssl,
)

from ._library import made
from .connection import (
    NEED_DATA,
    Connection,
    ConnectionClosed,
    Data,
    EndOfMessage,
    Rejected,
    Request,
    Response,
    State,
)
from .websocket import Fault, websocket_respond

__all__ = ["Protocol"]

Message = MutableMapping[str, Any]
Application = Callable[[Any, Callable[[], Awaitable[Message]], Callable[[Message], Awaitable[None]]], Awaitable[None]]
Fields = List[Tuple[bytes, bytes]]

_MIB = 1024 * 1024
#: Why a request asks for no WebSocket. Other faults are answered by uvicorn's protocol for WebSockets.
_NO_WEBSOCKET = {Fault.NOT_GET, Fault.OLD_HTTP, Fault.NOT_HTTP_11, Fault.NO_HOST, Fault.NO_UPGRADE, Fault.NO_CONNECTION}


class Protocol(asyncio.Protocol):
    """A connection of uvicorn's. Its limits are attributes, which a subclass may have otherwise."""

    #: The longest content of a request, in bytes. A longer one is answered by 413.
    most_content = 16 * _MIB
    #: The longest content of a response without Content-Length, in bytes. A longer one makes `send` fail.
    most_held = 16 * _MIB
    #: In how many seconds something of a request that has begun must come, and in how many all of it: else 408.
    receive_time = 10.0
    request_time = 60.0
    #: For how many seconds, and bytes, what a client sends after a rejection is dropped, so that it reads the response.
    linger_time = 5.0
    most_dropped = 16 * _MIB

    transport: asyncio.Transport
    flow: FlowControl

    def __init__(
        self,
        config: Any,
        server_state: Any,
        app_state: Optional[Dict[str, Any]] = None,
        _loop: Optional[asyncio.AbstractEventLoop] = None,
    ) -> None:
        if not config.loaded:
            config.load()
        self.config, self.app, self.app_state = config, config.loaded_app, app_state
        self.loop = _loop or asyncio.get_event_loop()
        self.logger = logging.getLogger("uvicorn.error")
        self.access_logger = logging.getLogger("uvicorn.access")
        self.access_log = self.access_logger.hasHandlers()
        self.conn = Connection(most_content=self.most_content, most_held=self.most_held)
        self.server_state = server_state
        self.connections, self.tasks = server_state.connections, server_state.tasks
        # Of the connection
        self.client: Optional[Tuple[str, int]] = None
        self.server: Optional[Tuple[str, int]] = None
        self.scheme = "http"
        self.is_stopping = False
        # How many bytes were dropped since the rejection, if there was one
        self.dropped: Optional[int] = None
        # When what the connection waits for has to come, of a request that has begun also all of it
        self.deadline = self.last_deadline = 0.0
        self.timer: Optional[asyncio.TimerHandle] = None
        # How many bytes came since a request waits for its response
        self.unread = 0
        # Of the request
        self.request: Optional[Request] = None
        self.content = b""
        self.exchange: Optional[_Exchange] = None

    # What asyncio calls

    def connection_made(self, transport: asyncio.BaseTransport) -> None:
        self.connections.add(self)
        self.transport = cast(asyncio.Transport, transport)
        self.flow = FlowControl(self.transport)
        self.server, self.client = get_local_addr(self.transport), get_remote_addr(self.transport)
        self.scheme = "https" if is_ssl(self.transport) else "http"
        self._trace("HTTP connection made")
        self._wait(self.request_time)

    def connection_lost(self, exc: Optional[Exception]) -> None:
        self.connections.discard(self)
        self._trace("HTTP connection lost")
        self._stop_timer()
        if self.exchange is not None:
            self.exchange.disconnect()
        self.flow.resume_writing()
        self.conn.close()
        if exc is None:
            self.transport.close()

    def data_received(self, data: bytes) -> None:
        if self.dropped is not None:
            self.dropped += len(data)
            if self.dropped > self.most_dropped:
                self.transport.close()
            return
        if self.exchange is not None:
            self.unread += len(data)
            if self.unread > HIGH_WATER_LIMIT:
                self.flow.pause_reading()
        else:
            self._wait_for_rest()
        self.conn.receive_data(data)
        self._go_on()

    def eof_received(self) -> None:
        pass

    def pause_writing(self) -> None:
        self.flow.pause_writing()

    def resume_writing(self) -> None:
        self.flow.resume_writing()

    # What uvicorn calls

    def shutdown(self) -> None:
        self.is_stopping = True
        if self.exchange is None:
            self.transport.close()

    # Time limits

    def _wait(self, seconds: float) -> None:
        """Waits for a request, so long at most."""
        self.last_deadline = 0.0
        self.deadline = self.loop.time() + seconds
        self._set_timer()

    def _wait_for_rest(self) -> None:
        now = self.loop.time()
        self.last_deadline = self.last_deadline or now + self.request_time
        self.deadline = min(now + self.receive_time, self.last_deadline)
        self._set_timer()

    def _set_timer(self) -> None:
        """A timer that is due earlier is set again then, so that few are made."""
        if self.timer is None or self.timer.when() > self.deadline:
            self._stop_timer()
            self.timer = self.loop.call_at(self.deadline, self._timed_out)

    def _stop_timer(self) -> None:
        if self.timer is not None:
            self.timer.cancel()
            self.timer = None

    def _timed_out(self) -> None:
        self.timer = None
        if self.exchange is not None or self.transport.is_closing():
            return
        if self.loop.time() < self.deadline:
            self._set_timer()
            return
        text = None if self.dropped is not None else self.conn.time_out()
        if text is None:
            self.transport.close()
        else:
            self.transport.write(text)
            self._linger()

    # Events

    def _go_on(self) -> None:
        """Does what the connection wants, until it wants input or a response."""
        while not self.transport.is_closing():
            try:
                event = self.conn.next_event()
            except MemoryError:
                self.logger.error("Out of memory for a request.")
                self.transport.abort()
                return
            if isinstance(event, Request):
                self.request, self.content = event, b""
            elif isinstance(event, Data):
                self.content = event.data
            elif isinstance(event, EndOfMessage):
                assert self.request is not None
                if self._begin(self.request):
                    return
            elif isinstance(event, Rejected):
                self.logger.warning("Invalid HTTP request received. It is answered by %d.", event.status)
                self._write()
                self._linger()
                return
            else:
                self._write()
                if isinstance(event, ConnectionClosed):
                    self.transport.close()
                elif event is NEED_DATA:
                    self.flow.resume_reading()
                return

    def _write(self) -> None:
        sent = self.conn.data_to_send()
        if sent:
            self.transport.write(sent)

    def _linger(self) -> None:
        """Ends what is sent, and closes once the client has, or after a while."""
        self.dropped = 0
        self._wait(self.linger_time)
        self.flow.resume_reading()
        if self.transport.can_write_eof():
            self.transport.write_eof()
        else:
            self.transport.close()

    def _begin(self, request: Request) -> bool:
        """Begins to answer a request. Returns whether its connection is another protocol's now."""
        if any(name == b"upgrade" for name, _ in request.headers) and self._upgrade(request):
            return True
        scope: Dict[str, Any] = {
            "type": "http",
            "asgi": {"version": self.config.asgi_version, "spec_version": "2.3"},
            "http_version": request.http_version.decode("ascii"),
            "server": self.server,
            "client": self.client,
            "scheme": self.scheme,
            "method": request.method.decode("ascii"),
            "root_path": self.config.root_path,
            "path": unquote_to_bytes(request.path).decode("utf-8", "replace"),
            "raw_path": request.path,
            "query_string": request.query or b"",
            "headers": list(request.headers),
        }
        if self.app_state is not None:
            scope["state"] = self.app_state.copy()
        app, limit = self.app, self.config.limit_concurrency
        if limit is not None and (len(self.connections) >= limit or len(self.tasks) >= limit):
            app = service_unavailable
            self.logger.warning("Exceeded concurrency limit.")
        self.unread = 0
        self.exchange = _Exchange(self, scope, self.content)
        self.content = b""
        task = self.loop.create_task(self.exchange.run(app))
        task.add_done_callback(self.tasks.discard)
        self.tasks.add(task)
        return False

    def _upgrade(self, request: Request) -> bool:
        """Hands the connection over to uvicorn's protocol for WebSockets, if the request asks for that."""
        texts = [(name.decode("latin-1"), value.decode("latin-1")) for name, value in request.headers]
        version = 10 if request.http_version == b"1.0" else 11
        if websocket_respond(request.method, texts, version=version).fault in _NO_WEBSOCKET:
            return False
        if self.config.ws_protocol_class is None:
            self.logger.warning("Unsupported upgrade request.")
            return False
        self._trace("Upgrading to WebSocket")
        self._stop_timer()
        self.connections.discard(self)
        head = [request.method, b" ", request.target, b" HTTP/1.1\r\n"]
        for name, value in request.headers:
            head += [name, b": ", value, b"\r\n"]
        head += [b"\r\n", self.conn.trailing_data[0]]
        given = {} if self.app_state is None else {"app_state": self.app_state}
        protocol = self.config.ws_protocol_class(config=self.config, server_state=self.server_state, **given)
        protocol.connection_made(self.transport)
        protocol.data_received(b"".join(head))
        self.transport.set_protocol(protocol)
        self.conn.close()
        return True

    def ended(self) -> None:
        """The response has been sent."""
        self.exchange = None
        self.server_state.total_requests += 1
        if self.transport.is_closing():
            return
        if self.is_stopping:
            self.transport.close()
            return
        self._wait(self.config.timeout_keep_alive)
        if self.unread:
            self._wait_for_rest()
        self._go_on()

    def _trace(self, text: str) -> None:
        if self.logger.level <= TRACE_LOG_LEVEL:
            prefix = "%s:%d - " % self.client if self.client else ""
            self.logger.log(TRACE_LOG_LEVEL, "%s%s", prefix, text)


class _Exchange:
    """A request, and its response by the application."""

    def __init__(self, protocol: Protocol, scope: Dict[str, Any], content: bytes) -> None:
        self._protocol, self._scope, self._content = protocol, scope, content
        self._conn, self._transport, self._flow = protocol.conn, protocol.transport, protocol.flow
        self._has_content, self._has_begun, self._has_ended = True, False, False
        self._is_disconnected = asyncio.Event()

    def disconnect(self) -> None:
        self._is_disconnected.set()

    async def run(self, app: Application) -> None:
        logger = self._protocol.logger
        try:
            result: object = await app(self._scope, self.receive, self.send)  # type: ignore[func-returns-value]
        except BaseException as exc:
            logger.error("Exception in ASGI application\n", exc_info=exc)
            await self._fail()
        else:
            if result is not None:
                logger.error("ASGI callable should return None, but returned '%s'.", result)
                self._transport.close()
            elif self._has_ended or self._is_disconnected.is_set():
                pass
            elif not self._has_begun:
                logger.error("ASGI callable returned without starting response.")
                await self._fail()
            else:
                logger.error("ASGI callable returned without completing response.")
                self._transport.close()

    async def _fail(self) -> None:
        """Answers by 500, if nothing of a response is on its way."""
        if self._has_ended or self._is_disconnected.is_set():
            return
        if self._conn.our_state != State.SEND_RESPONSE:
            self._transport.close()
            return
        fields = [(b"content-type", b"text/plain; charset=utf-8"), (b"connection", b"close")]
        self._has_begun = False
        await self.send({"type": "http.response.start", "status": 500, "headers": fields})
        await self.send({"type": "http.response.body", "body": b"Internal Server Error"})

    async def receive(self) -> Message:
        if self._has_content and not self._is_disconnected.is_set():
            self._has_content = False
            return {"type": "http.request", "body": self._content, "more_body": False}
        if not self._has_ended:
            self._flow.resume_reading()
            await self._is_disconnected.wait()
        return {"type": "http.disconnect"}

    async def send(self, message: Message) -> None:
        kind = message["type"]
        if self._has_ended:
            raise RuntimeError(f"Unexpected ASGI message '{kind}' sent, after response already completed.")
        if self._flow.write_paused and not self._is_disconnected.is_set():
            await self._flow.drain()
        if self._is_disconnected.is_set():
            return
        wanted = "http.response.body" if self._has_begun else "http.response.start"
        if kind != wanted:
            raise RuntimeError(f"Expected ASGI message '{wanted}', but got '{kind}'.")
        if self._has_begun:
            self._send_content(message.get("body", b""), message.get("more_body", False))
        else:
            self._begin(message["status"], list(message.get("headers", ())))

    def _begin(self, status: int, headers: Fields) -> None:
        fields = [*self._protocol.server_state.default_headers, *headers]
        if self._protocol.is_stopping and (b"connection", b"close") not in fields:
            fields.append((b"connection", b"close"))
        self._conn.send(made(Response, status_code=int(status), headers=fields))
        self._has_begun = True
        if self._protocol.access_log:
            self._protocol.access_logger.info(
                '%s - "%s %s HTTP/%s" %d',
                get_client_addr(self._scope),
                self._scope["method"],
                get_path_with_query_string(self._scope),
                self._scope["http_version"],
                status,
            )

    def _send_content(self, content: bytes, has_more: bool) -> None:
        try:
            self._conn.send(made(Data, data=content))
            if not has_more:
                self._conn.send(EndOfMessage())
        finally:
            self._protocol._write()
        if not has_more:
            self._has_ended = True
            self._is_disconnected.set()
            self._protocol.ended()


def run() -> None:
    """Runs uvicorn's command with this protocol, whatever `--http` says."""
    from typed_headers.uvicorn import Protocol as protocol

    for option in main.params:
        if option.name == "http":
            option.callback = lambda context, parameter, value: protocol
    main.main(prog_name="python3 -m typed_headers.uvicorn")


if __name__ == "__main__":
    run()
