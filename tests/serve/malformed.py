"""Sends malformed requests, and asks of each connection that no byte comes from outside the folder.

    malformed.py PORT COUNT FOLDER

Each connection has two requests, of which the first is broken in one way: cut, folded, with lengths that differ, with a
length and chunks, with bytes that no line may hold, or with a target that leads out. The answer has to be nothing, a
rejection or a correct answer for a file of the folder: the content that comes with a 200 is that of a file, and of what
is outside nothing comes. Where RFC 9110 or 9112 has a server reject the request, the first answer is a rejection.
"""
import os
import random
import socket
import sys

# What rejects a request, rather than say that it names nothing or has no method of the server.
REJECTIONS = {"400", "413", "414", "431", "501", "505"}
OUTSIDE = [b"root:", b"secret\n", b"hidden\n"]
GOOD = b"GET /hello.txt HTTP/1.1\r\nHost: a\r\nConnection: close\r\n\r\n"
OUT = [b"/../../etc/passwd", b"/%2e%2e/%2e%2e/etc/passwd", b"//etc/passwd", b"/..%2f..%2fetc/passwd",
       b"/sub/../../../etc/passwd", b"/.hidden", b"/sub/.secret", b"/link", b"/passwd", b"/away/secret.txt", b"/%00/etc/passwd", b"/..\\etc\\passwd",
       b"/sub/%2e%2e%00/etc/passwd", b"file:///etc/passwd", b"/%2fetc%2fpasswd", b"/./../etc/passwd"]


def broken(random_):
    """One malformed request, and whether it must be rejected."""
    target = random_.choice(OUT + [b"/hello.txt", b"/", b"/sub/"])
    fields = [b"Host: a"]
    kind = random_.randrange(12)
    line = b"GET " + target + b" HTTP/1.1"
    body = b""
    rejected = kind in (3, 5, 6, 8, 9)
    if kind == 0:
        other = random_.randrange(9)
        fields += [b"Content-Length: 5", b"Content-Length: %d" % other]
        body = b"hello"
        rejected = other != 5
    elif kind == 1:
        fields += [b"Content-Length: 5", b"Transfer-Encoding: chunked"]
        body = b"0\r\n\r\nGET /.hidden HTTP/1.1\r\nHost: a\r\n\r\n"
    elif kind == 2:
        fields += [b"X-Folded: a\r\n b"]
    elif kind == 3:
        fields += [b"X Name: a"]
    elif kind == 4:
        fields += [b"X-Value: a\x00b"]
    elif kind == 5:
        fields = []
    elif kind == 6:
        fields += [b"Host: b"]
    elif kind == 7:
        line = b"GET  " + target + b" HTTP/1.1"
    elif kind == 8:
        line = b"GET " + target + b" HTTP/" + random_.choice([b"9", b"1", b"1.1.1", b"x", b"2.0"])
    elif kind == 9:
        fields += [b"Transfer-Encoding: " + random_.choice([b"gzip, chunked", b"chunked, gzip", b"\x0bchunked", b"xchunked"])]
        body = b"3\r\nabc\r\n0\r\n\r\n"
    elif kind == 10:
        length = random_.choice([b"-1", b"+3", b"0x3", b"3 ", b"99999999999999999999", b"3,3", b""])
        fields += [b"Content-Length: " + length]
        body = b"abc"
        rejected = length not in (b"3 ", b"3,3")
    message = line + b"\r\n" + b"\r\n".join(fields) + b"\r\n\r\n" + body
    if kind == 11 or random_.randrange(8) == 0:
        message = bytearray(message)
        for _ in range(1 + random_.randrange(3)):
            message[random_.randrange(len(message))] = random_.randrange(256)
        message, rejected = bytes(message), False
    if random_.randrange(6) == 0:
        message, rejected = message[: random_.randrange(len(message))], False
    return message, rejected


def contents_of(folder):
    """The contents of the files that may be served."""
    for place, folders, names in os.walk(folder):
        for name in names:
            path = os.path.join(place, name)
            is_inside = os.path.exists(path) and os.path.realpath(path).startswith(folder + "/")
            if is_inside and not name.startswith("."):
                with open(path, "rb") as file:
                    yield file.read()


def are_right(answer, contents):
    """Whether the responses are whole, and each content of a 200 is that of a file."""
    while answer:
        head, _, answer = answer.partition(b"\r\n\r\n")
        first, *lines = head.decode("latin-1").split("\r\n")
        length = next((int(line.split(":")[1]) for line in lines if line.lower().startswith("content-length:")), 0)
        body, answer = answer[:length], answer[length:]
        if not first.startswith("HTTP/1.1 ") or len(body) != length:
            return False
        if first.startswith("HTTP/1.1 200 ") and body not in contents:
            return False
    return True


def main():
    port, count = int(sys.argv[1]), int(sys.argv[2])
    contents = set(contents_of(os.path.realpath(sys.argv[3])))
    random_ = random.Random(9112)
    statuses, found = {}, 0
    for index in range(count):
        message, rejected = broken(random_)
        answer = b""
        with socket.create_connection(("127.0.0.1", port), timeout=10) as connection:
            try:
                connection.sendall(message + GOOD)
                connection.shutdown(socket.SHUT_WR)
                while more := connection.recv(1 << 16):
                    answer += more
            except (BrokenPipeError, ConnectionResetError):
                pass
        status = answer[9:12].decode("latin-1") if answer.startswith(b"HTTP/1.") else "none"
        is_right = are_right(answer, contents) and not any(text in answer for text in OUTSIDE)
        if not is_right or (rejected and status not in REJECTIONS):
            found += 1
            print(f"{index}: {message!r}: {answer[:200]!r}")
        statuses[status] = statuses.get(status, 0) + 1
    print(", ".join(f"{status}: {number}" for status, number in sorted(statuses.items())))
    print(f"{count} malformed requests, {found} found wanting")
    sys.exit(1 if found else 0)


main()
