"""Asks for large files, and for files that change while they are sent.

    streams.py PROGRAM FOLDER

Each answer has to have exactly the bytes that were asked for, of the file that was opened. The most memory that the
process had resident until then (VmHWM of /proc) may be MOST, and after a range of 100 GiB at most MORE above that after
a file of 13 bytes. Prints what is wrong; the status is 0 if nothing is.
"""
import os
import subprocess
import sys
import time

MOST, MORE = 4096, 2048  # KiB
MIB = 1 << 20
wrong = 0


def expect(holds, what):
    global wrong
    if not holds:
        wrong += 1
        print(f"wrong: {what}")


class Server:
    """The program, with one connection over its standard input and output."""

    def __init__(self, program, *words):
        self.process = subprocess.Popen([program, *words], stdin=subprocess.PIPE, stdout=subprocess.PIPE)

    def ask(self, target, *lines):
        """Sends a request. Gives the status and the fields of the response."""
        self.send(target, *lines)
        return self.head()

    def send(self, target, *lines):
        text = "\r\n".join([f"GET /{target} HTTP/1.1", "Host: a", *lines, "", ""])
        self.process.stdin.write(text.encode())
        self.process.stdin.flush()

    def head(self):
        head = []
        while line := self.process.stdout.readline().strip():
            head.append(line.decode())
        return int(head[0].split(" ")[1]), dict(line.split(": ", 1) for line in head[1:])

    def read(self, count):
        return self.process.stdout.read(count)

    def skip(self, count):
        """Reads bytes that have to be zero. Gives how many came."""
        came = 0
        while came < count and (piece := self.read(min(MIB, count - came))):
            expect(not piece.strip(b"\0"), "a zero byte is another")
            came += len(piece)
        return came

    def peak(self):
        """The most memory that it had, in KiB."""
        with open(f"/proc/{self.process.pid}/status") as status:
            return next(int(line.split()[1]) for line in status if line.startswith("VmHWM"))

    def end(self):
        self.process.stdin.close()
        return self.process.wait()


def bytes_of(count, seed):
    return bytes((i * 7 + i // 251 + seed) % 256 for i in range(count))


def write(path, content):
    with open(path, "wb") as file:
        file.write(content)


def sparse(path, length):
    with open(path, "wb") as file:
        file.truncate(length)


def large(program, folder):
    sparse(f"{folder}/huge.bin", 100 << 30)
    sparse(f"{folder}/big.bin", 4 << 30)
    write(f"{folder}/small.txt", b"Hello, world\n")
    server = Server(program, folder)
    expect(server.ask("small.txt")[0] == 200 and server.read(13) == b"Hello, world\n", "a small file")
    small = server.peak()
    status, fields = server.ask("huge.bin", "Range: bytes=99999999995-99999999999")
    expect(status == 206 and fields["content-range"] == f"bytes 99999999995-99999999999/{100 << 30}", "a range of 100 GiB")
    expect(server.skip(5) == 5, "five bytes of 100 GiB")
    ranged = server.peak()
    begun = time.monotonic()
    status, fields = server.ask("big.bin")
    expect(status == 200 and fields["content-length"] == str(4 << 30) and server.skip(4 << 30) == 4 << 30, "4 GiB")
    taken = time.monotonic() - begun
    whole = server.peak()
    expect(server.end() == 0, "the end after large files")
    print(f"peak memory: {small} KiB after 13 bytes, {ranged} after a range of 100 GiB, {whole} after 4 GiB, which came "
          f"at {4096 / taken:.0f} MiB a second")
    expect(ranged <= small + MORE and whole <= MOST, "more memory than that")


def codings(program, folder):
    for name in ("coded.bin", "coded.bin.br", "coded.bin.gz"):
        sparse(f"{folder}/{name}", 1 << 30)
    server = Server(program, "--precompressed", folder)
    status, fields = server.ask("coded.bin", "Accept-Encoding: gzip", "Range: bytes=5-9")
    expect((status, fields.get("content-encoding")) == (206, "gzip") and server.skip(5) == 5, "a range of a coding")
    expect(server.peak() <= MOST, f"{server.peak()} KiB for a coding")
    expect(server.end() == 0, "the end after codings")


def parts(program, folder):
    content = bytes_of(3 * MIB, 1)
    write(f"{folder}/parts.bin", content)
    server = Server(program, folder)
    status, fields = server.ask("parts.bin", "Range: bytes=0-9,1000000-1099999,-3")
    body = server.read(int(fields["content-length"]))
    boundary = fields["content-type"].partition("boundary=")[2].encode()
    found = [part.partition(b"\r\n\r\n")[2][:-2] for part in body.split(b"--" + boundary)[1:-1]]
    expect(status == 206 and found == [content[:10], content[1000000:1100000], content[-3:]], "three parts")
    expect(body.endswith(b"--" + boundary + b"--\r\n"), "the end of the parts")
    expect(server.end() == 0, "the end after parts")


def changes(program, folder):
    content, other = bytes_of(16 * MIB, 2), bytes_of(16 * MIB, 3)
    path = f"{folder}/moving.bin"
    for what in ("cut", "replaced", "grown"):
        write(path, content)
        server = Server(program, folder)
        status, fields = server.ask("moving.bin")
        expect(status == 200 and fields["content-length"] == str(len(content)), f"the head of a file that is {what}")
        front = server.read(MIB)
        if what == "cut":
            os.truncate(path, 4 * MIB)
            sent = front + server.process.stdout.read()
            expect(len(sent) < len(content) and content.startswith(sent), "a file that is cut gives other bytes")
            expect(server.process.wait() == 1, "a file that is cut ends without an error")
            continue
        if what == "replaced":
            write(f"{folder}/new.bin", other)
            os.rename(f"{folder}/new.bin", path)
        else:
            with open(path, "ab") as file:
                file.write(other)
        expect(front + server.read(len(content) - MIB) == content, f"a file that is {what} gives other bytes")
        status, fields = server.ask("moving.bin")
        now = other if what == "replaced" else content + other
        expect(status == 200 and server.read(int(fields["content-length"])) == now, f"the file after it is {what}")
        expect(server.end() == 0, f"the end after a file that is {what}")


def tags(program, folder):
    path = f"{folder}/tagged.bin"
    content = bytes_of(MIB, 4)
    write(path, content)
    server = Server(program, folder)
    status, fields = server.ask("tagged.bin", "Range: bytes=0-0")
    expect(status == 206 and server.read(1) == content[:1] and "etag" not in fields, "a tag of a file that just changed")
    time.sleep(4)
    status, fields = server.ask("tagged.bin", "Range: bytes=0-0")
    tag = fields.get("etag", "")
    expect(server.read(1) == content[:1] and tag.startswith('"'), "no strong tag")
    expect(server.ask("tagged.bin", f"If-None-Match: {tag}")[0] == 304, "the tag is another at once")
    status, _ = server.ask("tagged.bin", f"If-Range: {tag}", "Range: bytes=500000-")
    expect(status == 206 and server.read(MIB - 500000) == content[500000:], "a download that goes on")
    other = bytes_of(MIB, 5)
    write(path, other)
    os.utime(path, (1_700_000_000, 1_700_000_000))
    status, _ = server.ask("tagged.bin", f"If-Range: {tag}", "Range: bytes=500000-")
    expect(status == 200 and server.read(MIB) == other, "a download of another content goes on")
    expect(server.end() == 0, "the end after tags")


def main():
    program, folder = sys.argv[1:]
    os.makedirs(folder)
    for run in (large, codings, parts, changes, tags):
        run(program, folder)
    sys.exit(1 if wrong else 0)


main()
