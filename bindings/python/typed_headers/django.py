"""Middleware for Django, by its path: conditional requests and ranges, and requests from other origins.

    MIDDLEWARE = ["typed_headers.django.Cors", "typed_headers.django.ConditionalRequests", ..]
    TYPED_HEADERS_CORS = CorsPolicy("https://a.example")

`ConditionalRequests` is outside of whatever changes content, as GZipMiddleware. The settings TYPED_HEADERS_TAGS and
TYPED_HEADERS_STRONG_DATES are the arguments `tags` and `strong_dates` of `typed_headers.wsgi.ConditionalRequests`, and
TYPED_HEADERS_CORS is the policy of `Cors`.
"""

import asyncio
import os
from typing import Any, AsyncIterator, Callable, Dict, Iterator, Optional, Union

from django.conf import settings
from django.core.exceptions import ImproperlyConfigured
from django.http import HttpResponse
from django.utils.decorators import sync_and_async_middleware

from ._exchange import CONDITIONS, ORIGINS, Cutter, Fields, Response, length_of, respond, tagged
from .cors import CorsKind, CorsPolicy
from .headers import Headers
from .wsgi import _key, _request

__all__ = ["ConditionalRequests", "Cors"]

#: What gives the response to a request, or an awaitable of it.
GetResponse = Callable[[Any], Any]
Middleware = Callable[[Any], Any]


def _set_fields(response: Any, fields: Fields) -> None:
    """Gives a response these fields in place of its own."""
    for name, _ in list(response.items()):
        del response[name]
    for name, value in fields:
        response[name] = f"{response[name]}, {value}" if name in response else value


def _bad_request() -> Any:
    return HttpResponse(status=400)


class _Conditions:
    """The conditions of a request, which its view doesn't see."""

    def __init__(self, request: Any, asked: Headers) -> None:
        self.request, self.asked = request, asked
        self.taken: Dict[str, str] = {}

    def __enter__(self) -> None:
        keys = [key for key in map(_key, CONDITIONS) if key in self.request.META]
        self.taken = {key: self.request.META.pop(key) for key in keys}
        # (it is made of META when it is first asked for)
        self.request.__dict__.pop("headers", None)

    def __exit__(self, *_: object) -> None:
        self.request.META.update(self.taken)
        self.request.__dict__.pop("headers", None)


def _answered(request: Any, asked: Headers, response: Any) -> Any:
    """The response to a conditional request or to one for ranges, made of the one of the view."""
    fields: Fields = list(response.items())
    length = length_of(fields)
    if not response.streaming:
        content = response.content
        length = len(content) if length is None else length
        has_content = content or request.method == "GET"
        if getattr(settings, "TYPED_HEADERS_TAGS", False) and response.status_code == 200 and has_content:
            fields = tagged(fields, content)
    is_strong = getattr(settings, "TYPED_HEADERS_STRONG_DATES", False)
    answer = respond(request.method, asked, Response(response.status_code, fields), length, is_strong)
    if answer.parts is not None:
        _cut(response, answer)
    if answer.fields is not fields or answer.status != response.status_code or fields != list(response.items()):
        response.status_code, response.reason_phrase = answer.status, None
        _set_fields(response, answer.fields)
    return response


def _cut(response: Any, answer: Response) -> None:
    """Leaves of the content of a response what is sent."""
    if not response.streaming:
        response.content = Cutter(answer).cut(response.content) if answer.parts else b""
        return
    pieces, cutter = response.streaming_content, Cutter(answer, _skip(response, answer))
    is_async = getattr(response, "is_async", False)
    response.streaming_content = _cut_later(pieces, cutter) if is_async else _cut_pieces(pieces, cutter)


def _skip(response: Any, answer: Response) -> int:
    """Moves the file of a response to its first part, and returns how many bytes that skips."""
    file, first = getattr(response, "file_to_stream", None), answer.parts[0][1].first if answer.parts else 0
    try:
        if file is None or not file.seekable():
            return 0
        file.seek(first, os.SEEK_CUR)
    except (AttributeError, OSError):
        return 0
    return first


def _cut_pieces(pieces: Iterator[bytes], cutter: Cutter) -> Iterator[bytes]:
    while not cutter.is_done:
        piece = next(pieces, None)
        if piece is None:
            return
        yield cutter.cut(piece)


async def _cut_later(pieces: AsyncIterator[bytes], cutter: Cutter) -> AsyncIterator[bytes]:
    if cutter.is_done:
        return
    async for piece in pieces:
        yield cutter.cut(piece)
        if cutter.is_done:
            return


@sync_and_async_middleware
def ConditionalRequests(get_response: GetResponse) -> Middleware:
    """Answers conditional requests and requests for ranges in place of a view, as the middleware for WSGI does."""

    def asked_of(request: Any) -> Union[Headers, None]:
        return _request(request.META, CONDITIONS)

    if asyncio.iscoroutinefunction(get_response):

        async def ask_later(request: Any) -> Any:
            if request.method not in ("GET", "HEAD"):
                return await get_response(request)
            asked = asked_of(request)
            if asked is None:
                return _bad_request()
            with _Conditions(request, asked):
                response = await get_response(request)
            return _answered(request, asked, response)

        return ask_later

    def ask(request: Any) -> Any:
        if request.method not in ("GET", "HEAD"):
            return get_response(request)
        asked = asked_of(request)
        if asked is None:
            return _bad_request()
        with _Conditions(request, asked):
            response = get_response(request)
        return _answered(request, asked, response)

    return ask


@sync_and_async_middleware
def Cors(get_response: GetResponse) -> Middleware:
    """Answers requests from other origins by the policy of TYPED_HEADERS_CORS, as the middleware for WSGI does."""
    given = getattr(settings, "TYPED_HEADERS_CORS", None)
    if not isinstance(given, CorsPolicy):
        raise ImproperlyConfigured("TYPED_HEADERS_CORS: expected a typed_headers.CorsPolicy")
    policy: CorsPolicy = given

    def preflight(request: Any, asked: Optional[Headers]) -> Any:
        """The response to what no view sees, or `None`."""
        if asked is None:
            return _bad_request()
        answer = policy.answer(request.method, asked) if request.method == "OPTIONS" else None
        if answer is None or answer.kind is not CorsKind.PREFLIGHT:
            return None
        response = HttpResponse(status=204)
        _set_fields(response, list(answer.fields))
        return response

    def added(request: Any, asked: Headers, response: Any) -> Any:
        fields: Fields = list(response.items())
        varied = [(name, value) for name, value in fields if name.lower() == "vary"]
        _set_fields(response, policy.answer(request.method, asked, varied).apply(fields))
        return response

    if asyncio.iscoroutinefunction(get_response):

        async def ask_later(request: Any) -> Any:
            asked = _request(request.META, ORIGINS)
            answer = preflight(request, asked)
            return answer if answer is not None else added(request, asked or Headers(), await get_response(request))

        return ask_later

    def ask(request: Any) -> Any:
        asked = _request(request.META, ORIGINS)
        answer = preflight(request, asked)
        return answer if answer is not None else added(request, asked or Headers(), get_response(request))

    return ask
