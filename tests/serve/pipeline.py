"""Sends 1,000 requests over one connection before it reads an answer.

    pipeline.py PROGRAM FOLDER

FOLDER is that of folder.py. The answers have to come in the order of the requests, byte for byte what
each request gets over a connection of its own, however the bytes of the requests are divided. Prints what is wrong; the
status is 0 if nothing is.
"""
import random
import socket
import subprocess
import sys
import threading

COUNT = 1000
INNER = b"GET /.hidden HTTP/1.1\r\nHost: a\r\n\r\n"


def request(method, target, *fields, body=b""):
    return "\r\n".join([f"{method} {target} HTTP/1.1", "Host: a", *fields, "", ""]).encode() + body


REQUESTS = [
    request("GET", "/hello.txt"),
    request("HEAD", "/hello.txt"),
    request("GET", "/empty.txt"),
    request("GET", "/big.bin", "Range: bytes=100000-100099"),
    request("GET", "/big.bin", "Range: bytes=-5"),
    request("GET", "/hello.txt", "Range: bytes=13-"),
    request("GET", "/picture.png"),
    request("GET", "/hello.txt", "If-None-Match: *"),
    request("GET", "/hello.txt", 'If-Match: "other"'),
    request("GET", "/nothing"),
    request("GET", "/sub?query"),
    request("GET", "/sub/"),
    request("OPTIONS", "/hello.txt"),
    request("OPTIONS", "*"),
    request("POST", "/hello.txt", f"Content-Length: {len(INNER)}", body=INNER),
    request("PUT", "/new.txt", "Transfer-Encoding: chunked", body=b"5\r\nhello\r\n0\r\n\r\n"),
    request("GET", "/../etc/passwd"),
    request("GET", "/link"),
]


class Connection:
    """The program at one end of a pair of sockets, of which this is the other end."""

    def __init__(self, program, folder):
        self.socket, other = socket.socketpair()
        self.process = subprocess.Popen([program, "--no-dates", folder], stdin=other, stdout=other)
        other.close()

    def send(self, pieces):
        for piece in pieces:
            self.socket.sendall(piece)
        self.socket.shutdown(socket.SHUT_WR)

    def receive(self):
        answer = b"".join(iter(lambda: self.socket.recv(1 << 16), b""))
        return answer, self.process.wait()


def pieces_of(message, random_, most):
    at = 0
    while at < len(message):
        count = random_.randint(1, most)
        yield message[at : at + count]
        at += count


def main():
    program, folder = sys.argv[1:]
    alone = []
    for message in REQUESTS:
        connection = Connection(program, folder)
        connection.send([message])
        alone.append(connection.receive())
    wrong = [REQUESTS[at].split(b"\r\n")[0] for at, (answer, status) in enumerate(alone)
             if status or answer.count(b"HTTP/1.1 ") != 1]
    random_ = random.Random(1000)
    order = [random_.randrange(len(REQUESTS)) for _ in range(COUNT)]
    message = b"".join(REQUESTS[at] for at in order)
    wanted = b"".join(alone[at][0] for at in order)
    for most in (len(message), 4096, 40):
        connection = Connection(program, folder)
        sender = threading.Thread(target=connection.send, args=(list(pieces_of(message, random_, most)),))
        sender.start()
        answer, status = connection.receive()
        sender.join()
        if answer != wanted or status:
            wrong.append(f"in pieces of at most {most}: {len(answer)} of {len(wanted)} bytes, status {status}")
    print(f"{COUNT} requests of {len(REQUESTS)} kinds, {len(wanted)} bytes of answers")
    for what in wrong:
        print(f"wrong: {what}")
    sys.exit(1 if wrong else 0)


main()
