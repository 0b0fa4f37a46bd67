"""Typed header fields as parameters of the endpoints of Starlette and FastAPI.

>>> import asyncio
>>> from typing import Annotated, Optional
>>> from starlette.requests import Request
>>> from typed_headers import CacheControl
>>> @typed_parameters
... async def show(request, caching: Annotated[Optional[CacheControl], TypedHeader()]):
...     return caching and caching.max_age
>>> def ask(*fields):
...     return asyncio.run(show(Request({"type": "http", "headers": list(fields)})))
>>> ask((b"cache-control", b"max-age=60")), ask()
(60, None)
>>> try:
...     ask((b"cache-control", b"max-age=x"))
... except HTTPException as error:
...     error.status_code
400
"""

import inspect
import sys
from datetime import datetime
from functools import wraps
from operator import attrgetter
from typing import Any, Callable, Dict, Iterable, List, NamedTuple, Optional, Set, Tuple, Union

from starlette.exceptions import HTTPException
from starlette.requests import Request

if sys.version_info >= (3, 9):
    from typing import Annotated, get_args, get_origin, get_type_hints
else:
    from typing_extensions import Annotated, get_args, get_origin, get_type_hints

from . import _library, parts
from .errors import HeaderError
from .fields import AccessControlAllowCredentials
from .headers import Headers

__all__ = ["TypedHeader", "typed_parameters"]

Endpoint = Callable[..., Any]


class TypedHeader:
    """Says that a parameter is a field of the request: `Annotated[CacheControl, TypedHeader()]`.

    The parameter's type says which field it is. Where several fields have that type, `name` says it. With a name, the
    type may be the plain one of the field's values, as `Annotated[datetime, TypedHeader("Date")]`. A `str` is any
    field's value.
    """

    def __init__(self, name: Optional[str] = None) -> None:
        self.name = name


#: The type of each field that `Headers` has a typed value of.
_TYPES: Dict[str, Any] = {
    name.replace("_", "-"): get_args(get_type_hints(it.fget, localns={"parts": parts})["return"])[0]
    for name, it in vars(Headers).items()
    if isinstance(it, property) and it.fget is not None and name != "section"
}
#: The field of each type that isn't that of several.
_FIELDS = {kind: name for name, kind in reversed(_TYPES.items())}


def _plain(kind: Any) -> Dict[Any, Callable[[Any], Any]]:
    """The plain types of a field's values, each with what makes one of a value."""
    if not isinstance(kind, type):
        return {}
    if issubclass(kind, tuple):
        return {List[str]: list, Tuple[str, ...]: tuple}
    if issubclass(kind, AccessControlAllowCredentials):
        return {bool: bool}
    return {it: attrgetter("value") for it in (int, datetime) if issubclass(kind, it)}


class _Parameter(NamedTuple):
    """The field that a parameter is, what makes its plain value, and what the parameter is without the field:
    `default`, unless the request needs it."""

    field: str
    is_text: bool
    made: Optional[Callable[[Any], Any]]
    default: Any
    is_needed: bool

    def value(self, headers: Headers) -> Any:
        if self.field not in headers:
            if self.is_needed:
                raise HeaderError(f"{self.field}: the request has no such field")
            return self.default
        if self.is_text:
            return headers[self.field]
        value = getattr(headers, self.field.replace("-", "_"))
        return value if self.made is None else self.made(value)


def _parameter(given: inspect.Parameter, hint: Any) -> Optional[_Parameter]:
    """The field that a parameter is, if it is one."""
    named = [it for it in get_args(hint)[1:] if isinstance(it, TypedHeader)] if get_origin(hint) is Annotated else []
    if not named:
        return None
    kind = get_args(hint)[0]
    kinds = [it for it in get_args(kind) if it is not type(None)] if get_origin(kind) is Union else [kind]
    name = named[0].name or _FIELDS.get(kinds[0])
    if name is None:
        raise TypeError(f"{given.name}: no field is named, and {kind} isn't the type of a single one")
    field = name.lower()
    if not _library.is_token(field):
        raise HeaderError(f"{given.name}: {name!r} is no field name (RFC 9110, section 5.1)")
    made = _plain(_TYPES.get(field)).get(kinds[0])
    if len(kinds) != 1 or made is None and kinds[0] is not str and kinds[0] != _TYPES.get(field):
        raise TypeError(f"{given.name}: {name} has values of {_TYPES.get(field, str)}, not of {kind}")
    is_needed = given.default is given.empty and type(None) not in get_args(kind)
    default = None if given.default is given.empty else given.default
    return _Parameter(field, kinds[0] is str, made, default, is_needed)


def _is_request(hint: Any) -> bool:
    return isinstance(hint, type) and issubclass(hint, Request)


def _signature(endpoint: Endpoint) -> Tuple[Dict[str, _Parameter], inspect.Signature, str, bool]:
    """The parameters of an endpoint that are fields; the signature that a framework sees; which parameter of that is
    the request, and whether the endpoint has it."""
    hints, given = get_type_hints(endpoint, include_extras=True), inspect.signature(endpoint)
    found: Dict[str, _Parameter] = {}
    others: List[inspect.Parameter] = []
    for name, it in given.parameters.items():
        parameter = _parameter(it, hints.get(name))
        if parameter is not None:
            found[name] = parameter
        elif it.kind in (it.POSITIONAL_ONLY, it.VAR_POSITIONAL):
            raise TypeError(f"{endpoint}: {it} has no name to be passed by")
        else:
            others.append(it.replace(annotation=hints.get(name, it.annotation)))
    for place, it in enumerate(others):
        if _is_request(it.annotation) or it.name == "request" and it.annotation is it.empty:
            others[place] = it.replace(annotation=it.annotation if _is_request(it.annotation) else Request)
            return found, given.replace(parameters=others), it.name, True
    request = inspect.Parameter("request", inspect.Parameter.POSITIONAL_OR_KEYWORD, annotation=Request)
    return found, given.replace(parameters=[request, *others]), "request", False


def typed_parameters(endpoint: Endpoint) -> Endpoint:
    """An endpoint whose parameters with `TypedHeader` are the typed fields of its request, in Starlette and FastAPI.

    Without the field the parameter is its default, or `None` if its type is `Optional`. If it is neither, or if the
    field lines encode no value, the endpoint isn't called: the request is answered by 400. In FastAPI it stands below
    the route's decorator.
    """
    found, signature, request_name, has_request = _signature(endpoint)
    wanted: Set[bytes] = {it.field.encode("ascii") for it in found.values()}

    def arguments(given: Iterable[Any], named: Dict[str, Any]) -> Dict[str, Any]:
        passed = dict(zip(signature.parameters, given), **named)
        request = passed[request_name] if has_request else passed.pop(request_name)
        try:
            headers = Headers([(name, value) for name, value in request.headers.raw if name.lower() in wanted])
            passed.update((name, it.value(headers)) for name, it in found.items())
        except HeaderError as error:
            raise HTTPException(400, str(error)) from None
        return passed

    if inspect.iscoroutinefunction(endpoint):

        @wraps(endpoint)
        async def asked(*given: Any, **named: Any) -> Any:
            return await endpoint(**arguments(given, named))

    else:

        @wraps(endpoint)
        def asked(*given: Any, **named: Any) -> Any:
            return endpoint(**arguments(given, named))

    setattr(asked, "__signature__", signature)
    del asked.__wrapped__  # type: ignore[attr-defined]
    return asked
