"""Members of values, which are checked as a value is made: each has the type that its class declares."""

from collections import abc
from dataclasses import fields
from enum import IntEnum
from typing import Any, Callable, Dict, List, SupportsIndex, Tuple, Union, get_args, get_origin, get_type_hints

from .errors import HeaderError

#: What checks a member, by its name and as it was given, and gives it as it is stored.
_Check = Callable[[str, Any], Any]

#: What is taken where a type is declared, if that is more than its values.
_TAKEN: Dict[type, Tuple[Any, ...]] = {int: (int, SupportsIndex), bytes: (bytes, bytearray, memoryview)}
#: What is no list of texts, or of bytes.
_ONE = (str, bytes, bytearray, memoryview)

_CHECKS: Dict[type, Tuple[Tuple[str, _Check], ...]] = {}


def check_members(value: Any) -> None:
    """Raises a `TypeError` that names the member if a member of a value, whose class is a dataclass, has another type
    than its class declares. Several of a type are stored as a tuple, and a number as the constant that it stands for.
    """
    kind = type(value)
    checks = _CHECKS.get(kind)
    if checks is None:
        checks = _CHECKS[kind] = tuple((name, _check_of(it)) for name, it in _declared(kind).items())
    # (a value whose `__dict__` was asked for takes longer to be read)
    for name, check in checks:
        given = getattr(value, name)
        found = check(name, given)
        if found is not given:
            object.__setattr__(value, name, found)


def type_name(given: object) -> str:
    """The name of a value's type in a message."""
    return "None" if given is None else type(given).__name__


def _declared(kind: Any) -> Dict[str, Any]:
    """The type of each member, but for those of a program's own class that have no such name here."""
    found = {it.name: it.type for it in fields(kind)}
    if any(isinstance(it, str) for it in found.values()):
        try:
            hints = get_type_hints(kind)
        except NameError:
            hints = {name: it for name, it in found.items() if not isinstance(it, str)}
        return {name: hints[name] for name in found if name in hints}
    return found


def _check_of(kind: Any) -> _Check:
    origin, parts = get_origin(kind), get_args(kind)
    if origin is Union:
        return _one_of(kind)
    if origin is tuple and parts[-1] is not Ellipsis:
        return _row(kind)
    if origin in (tuple, abc.Sequence):
        return _several(kind, tuple)
    if origin is frozenset:
        return _several(kind, frozenset)
    if origin is abc.Iterable:
        return _iterable(kind)
    if isinstance(kind, type) and issubclass(kind, IntEnum):
        return _constant(kind)
    known = origin or kind
    return _instance(known) if isinstance(known, type) and known is not Any else lambda name, given: given


def _name_of(kind: Any) -> str:
    origin, parts = get_origin(kind), get_args(kind)
    if origin is Union:
        return " or ".join(map(_name_of, parts))
    if origin is tuple and parts[-1] is not Ellipsis:
        return f"({', '.join(map(_name_of, parts))})"
    if origin in (tuple, abc.Sequence, abc.Iterable, frozenset):
        return f"several {_name_of(parts[0])}"
    return "None" if kind is type(None) else str(getattr(origin or kind, "__name__", kind))


def _wrong(name: str, kind: Any, given: Any) -> TypeError:
    return TypeError(f"{name}: expected {_name_of(kind)}, not {type_name(given)}")


def _instance(kind: type) -> _Check:
    taken = _TAKEN.get(kind, (kind,))

    def check(name: str, given: Any) -> Any:
        if not isinstance(given, taken):
            raise _wrong(name, kind, given)
        return given

    return check


def _iterable(kind: Any) -> _Check:
    """What may be looked at once alone, and so isn't."""

    def check(name: str, given: Any) -> Any:
        if isinstance(given, _ONE) or not isinstance(given, abc.Iterable):
            raise _wrong(name, kind, given)
        return given

    return check


def _constant(kind: Any) -> _Check:
    def check(name: str, given: Any) -> Any:
        if isinstance(given, kind):
            return given
        if not isinstance(given, int):
            raise _wrong(name, kind, given)
        try:
            return kind(given)
        except ValueError:
            raise HeaderError(f"{name}: {given} is no {kind.__name__}") from None

    return check


def _one_of(kind: Any) -> _Check:
    """A member of one of several types. Those without parts are looked for first."""
    plain: List[Any] = []
    others: List[Any] = []
    for part in get_args(kind):
        is_plain = isinstance(part, type) and get_origin(part) is None and not issubclass(part, IntEnum)
        (plain if is_plain else others).append(part)
    # (what takes long to be looked for is the last)
    each = [it for part in plain for it in _TAKEN.get(part, (part,))]
    taken = tuple(sorted(each, key=lambda it: it is SupportsIndex))
    checks = [_check_of(part) for part in others]

    def check(name: str, given: Any) -> Any:
        if isinstance(given, taken):
            return given
        for other in checks:
            try:
                return other(name, given)
            except TypeError:
                if len(checks) == 1 and not isinstance(given, _ONE) and isinstance(given, abc.Iterable):
                    raise
        raise _wrong(name, kind, given)

    return check


def _row(kind: Any) -> _Check:
    """A tuple of so many members, each of its own type."""
    checks = [_check_of(part) for part in get_args(kind)]

    def check(name: str, given: Any) -> Any:
        if not isinstance(given, (tuple, list)) or len(given) != len(checks):
            raise _wrong(name, kind, given)
        return tuple([other(name, it) for other, it in zip(checks, given)])

    return check


def _several(kind: Any, made: Any) -> _Check:
    """Members of one type."""
    each = _check_of(get_args(kind)[0])

    def check(name: str, given: Any) -> Any:
        if isinstance(given, _ONE) or not isinstance(given, abc.Iterable):
            raise _wrong(name, kind, given)
        return made([each(name, it) for it in given])

    return check
