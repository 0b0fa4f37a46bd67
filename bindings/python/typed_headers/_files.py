"""What the applications that serve a folder share.

The library says which paths are opened, and what is answered (`typed_headers_files_plan`). Here they are opened.
"""

import errno
import os
import secrets
import stat
import time
from typing import Iterator, List, Optional, Sequence, Tuple, Union
from urllib.parse import quote

from . import _library
from ._exchange import CONDITIONS, Fields
from .errors import HeaderError
from .headers import Headers

#: The fields of a request by which a folder answers it.
ASKED = ("host", "accept-encoding", *CONDITIONS)
#: The fields of the answer that are the server's own.
_OF_SERVER = ("connection", "date")

_MISSING, _FILE, _FOLDER, _FORBIDDEN, _UNAVAILABLE = range(5)
_KINDS = {
    **dict.fromkeys((errno.ENOENT, errno.ENOTDIR, errno.ENAMETOOLONG), _MISSING),
    **dict.fromkeys((errno.EACCES, errno.EPERM, errno.ELOOP, errno.ENXIO), _FORBIDDEN),
}
_NEEDS_INPUT, _REQUEST, _OUTPUT = range(3)
_PIECE = 256 * 1024
_OPENS = os.O_RDONLY | os.O_CLOEXEC | os.O_NONBLOCK | os.O_NOCTTY | os.O_NOFOLLOW
_ANY_BYTE = "/:@!$&'()*+,;=-._~"

Entry = Tuple[int, int, int, int, int, int, int]
#: What is sent: bytes, and then so many of the file from a place on.
Piece = Tuple[bytes, int, int]


class Answer:
    """The response to a request. It has the file open that it sends, if it sends one."""

    def __init__(self, head: bytes, pieces: Sequence[Piece], file: Optional[int]) -> None:
        line, _, section = head.partition(b"\r\n")
        self.status = int(line[9:12])
        self.fields: Fields = [it for it in Headers(section).pairs() if it[0] not in _OF_SERVER]
        self._pieces, self._file, self._known = pieces, file, None if file is None else os.fstat(file)

    def __iter__(self) -> Iterator[bytes]:
        """The content, in pieces. `OSError` if the file is another one meanwhile: then the response can't be ended."""
        for text, start, length in self._pieces:
            if text:
                yield text
            while length:
                piece = self._read(start, min(length, _PIECE))
                start, length = start + len(piece), length - len(piece)
                yield piece

    def _read(self, start: int, length: int) -> bytes:
        if self._file is None or self._known is None:
            raise ValueError("the file is closed")
        piece, now = os.pread(self._file, length, start), os.fstat(self._file)
        if not piece or (now.st_size, now.st_mtime_ns) != (self._known.st_size, self._known.st_mtime_ns):
            raise OSError(errno.ESTALE, "a file changed while it was sent")
        return piece

    def close(self) -> None:
        if self._file is not None:
            os.close(self._file)
        self._file = None


class Folder:
    """A folder whose files are served. Links in it aren't followed."""

    def __init__(
        self,
        folder: Union[str, "os.PathLike[str]"],
        precompressed: bool,
        cache_control: str,
        hosts: Union[str, Sequence[str]],
        key: Optional[bytes],
    ) -> None:
        self.folder = os.fspath(folder)
        if key is not None and len(key) != 16:
            raise HeaderError(f"key: expected 16 bytes, not {len(key)}")
        os.close(os.open(self.folder, os.O_RDONLY | os.O_DIRECTORY | os.O_CLOEXEC))
        told = _library.to_bytes(cache_control, "cache_control")
        names = _library.joined(_library.to_lines("hosts", [hosts] if isinstance(hosts, str) else hosts))
        with _library.keyed(key):
            options = (told, names, secrets.token_hex(16).encode(), precompressed)
            status, self._handle = _library.calls.files_new(options)
        _library.check(status, lambda: _library.rejected("cache-control", [told]))

    def answer(self, method: str, path: bytes, query: str, mount: bytes, request: Headers, version: int) -> Answer:
        """The response to a request for a path, decoded, that begins with the one of the folder.

        `HeaderError` if no such request can be.
        """
        if not _library.is_token(method):
            raise HeaderError(f"method: {method!r} is no token (RFC 9110, section 9.1)")
        target = quote(path, _ANY_BYTE) + (f"?{quote(query, _ANY_BYTE + '?%', 'latin-1')}" if query else "")
        lines = "".join(f"{name}: {value}\r\n" for name, value in request.pairs())
        head = f"{method} {target} HTTP/{version // 10}.{version % 10}\r\n{lines}\r\n".encode("latin-1")
        connection = _opened(*_library.calls.connection_new(0))
        _check(_library.calls.connection_receive(connection, head))
        event = _event(connection)
        if event == _OUTPUT:
            return _sent(connection, None)
        if event != _REQUEST:
            raise HeaderError("the request is none of HTTP/1.1")
        found: List[Entry] = []
        with _Opened(self.folder) as opened:
            while True:
                status, name = _library.calls.files_path(self._handle, connection, tuple(found))
                if status == _library.ABSENT:
                    break
                _check(status)
                found.append(opened.find(_below(mount, name)))
            now = int(time.time())
            status, place = _library.calls.files_plan(self._handle, connection, tuple(found), now, False)
            _check(status)
            _check(_library.calls.connection_respond(connection))
            _event(connection)
            return _sent(connection, opened.take(place))


def _opened(status: int, handle: "_library.Handle") -> "_library.Handle":
    _check(status)
    return handle


def _check(status: int) -> None:
    _library.check(status, lambda: HeaderError("the request is none of HTTP/1.1"))


def _event(connection: "_library.Handle") -> int:
    status, event = _library.calls.connection_next(connection)
    _check(status)
    return event


def _sent(connection: "_library.Handle", file: Optional[int]) -> Answer:
    """What a connection sends, to its end, once it has output."""
    pieces: List[Piece] = []
    try:
        while not pieces or _event(connection) == _OUTPUT:
            status, text = _library.calls.connection_output(connection, _PIECE)
            _check(status)
            _check(_library.calls.connection_sent(connection, len(text)))
            absent, start, length = _library.calls.connection_range(connection)
            if absent:
                start = length = 0
            else:
                _check(_library.calls.connection_sent(connection, length))
            pieces.append((text, start, length))
        (text, start, length), *others = pieces
        head, _, rest = text.partition(b"\r\n\r\n")
        return Answer(head + b"\r\n", [(rest, start, length), *others], file)
    except BaseException:
        if file is not None:
            os.close(file)
        raise


def _below(mount: bytes, path: bytes) -> Optional[bytes]:
    """A path below the one where the folder is mounted: empty for the folder itself, `None` if it isn't below."""
    if not mount or path == mount:
        return b"" if path == mount else path
    return path[len(mount) + 1 :] if path.startswith(mount + b"/") else None


class _Opened:
    """The files that were opened for a request."""

    def __init__(self, folder: str) -> None:
        self.folder = folder
        # The folder that was opened last, and its path.
        self.above: Optional[Tuple[bytes, int]] = None
        self.files: List[Optional[int]] = []

    def __enter__(self) -> "_Opened":
        return self

    def __exit__(self, *_: object) -> None:
        for file in (self.above and self.above[1], *self.files):
            if file is not None:
                os.close(file)

    def take(self, place: int) -> Optional[int]:
        """The file at a place, which stays open."""
        if place >= len(self.files):
            return None
        file, self.files[place] = self.files[place], None
        return file

    def find(self, path: Optional[bytes]) -> Entry:
        """What there is at a path, which is open from now on if it is a file."""
        self.files.append(None)
        if not path:
            return 0, 0, 0, 0, 0, 0, _MISSING if path is None else _FOLDER
        above, _, name = path.rpartition(b"/")
        try:
            file = self.files[-1] = os.open(name, _OPENS, dir_fd=self.folder_at(above))
            it = os.fstat(file)
        except OSError as error:
            return 0, 0, 0, 0, 0, 0, _KINDS.get(error.errno or 0, _UNAVAILABLE)
        kind = _FILE if stat.S_ISREG(it.st_mode) else _FOLDER if stat.S_ISDIR(it.st_mode) else _FORBIDDEN
        second, nanosecond = divmod(it.st_ctime_ns, 10**9)
        # (a time before 1970 is none that is told)
        modified = it.st_mtime_ns // 10**9 % 2**64
        return it.st_size, modified, it.st_dev, it.st_ino, max(second, 0), nanosecond, kind

    def folder_at(self, path: bytes) -> int:
        """The folder at a path, opened name by name, so that no link leads anywhere."""
        if self.above is None or self.above[0] != path:
            file = os.open(self.folder, os.O_RDONLY | os.O_DIRECTORY | os.O_CLOEXEC)
            for name in path.split(b"/") if path else ():
                outer = file
                try:
                    file = os.open(name, _OPENS | os.O_DIRECTORY, dir_fd=outer)
                finally:
                    os.close(outer)
            if self.above is not None:
                os.close(self.above[1])
            self.above = path, file
        return self.above[1]
