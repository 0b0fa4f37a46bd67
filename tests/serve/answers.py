"""Asks for what can't be sent, and for what no contract states: dates, and how much of a file is read.

    answers.py PROGRAM FOLDER

FOLDER is that of folder.py. Prints what is wrong; the status is 0 if nothing is.
"""
import email.utils
import os
import re
import resource
import shutil
import subprocess
import sys
import tempfile
import time

MIB = 1 << 20
wrong = 0


def expect(holds, what):
    global wrong
    if not holds:
        wrong += 1
        print(f"wrong: {what}")


def request(method, target, *fields):
    return "\r\n".join([f"{method} {target} HTTP/1.1", "Host: a", *fields, "", ""]).encode()


def is_right():
    """Whether nothing was wrong so far."""
    return not wrong


class Server:
    """The program with options, of which each connection is a run."""

    def __init__(self, program, folder, *options, **more):
        self.words, self.more = [program, *options, folder], more

    def answer(self, *words):
        """The status, the fields and the content of a response."""
        done = subprocess.run(self.words, input=request(*words), capture_output=True, check=True, **self.more)
        head, _, content = done.stdout.partition(b"\r\n\r\n")
        first, *lines = head.decode("latin-1").split("\r\n")
        return int(first.split(" ")[1]), [tuple(line.split(": ", 1)) for line in lines], content

    def status(self, target, *fields):
        return self.answer("GET", target, *fields)[0]

    def begin(self, target, *fields, descriptors=None):
        """The first line of a response, and how many bytes the program has read since it started."""
        with subprocess.Popen(self.words, stdin=subprocess.PIPE, stdout=subprocess.PIPE, **self.more) as process:
            def send(*requests):
                process.stdin.write(b"".join(requests))
                process.stdin.flush()
                lines = [process.stdout.readline()]
                while not lines[-1].startswith(b"allow:"):
                    lines.append(process.stdout.readline())
                process.stdout.readline()
                return lines[0].strip()

            # (an answer to OPTIONS says that the program has started, and that what was before it is sent)
            send(request("OPTIONS", "*"))
            if descriptors is not None:
                resource.prlimit(process.pid, resource.RLIMIT_NOFILE, (descriptors, descriptors))
            first = send(request("GET", target, *fields), request("OPTIONS", "*"))
            with open(f"/proc/{process.pid}/io") as file:
                count = int(re.search(r"rchar: (\d+)", file.read())[1])
            process.stdin.close()
            process.stdout.read()
        return first, count


def faults(program, folder):
    """The statuses of what can't be sent."""
    server = Server(program, folder)
    os.mkfifo(f"{folder}/pipe")
    expect(server.status("/pipe") == 403, "a pipe")
    expect(server.status("/round") == 403, "a link that leads to itself")
    expect(server.status("/" + "x" * 300) == 404, "a name that is too long")
    expect(server.status("/hello.txt/x") == 404, "a name below a file")
    expect(Server(program, folder, "--max-file", "12").status("/hello.txt") == 403, "a file that is too long")
    expect(Server(program, folder, "--max-file", "13").status("/hello.txt") == 200, "a file that is as long as allowed")
    os.remove(f"{folder}/pipe")
    first, _ = server.begin("/hello.txt", descriptors=3)
    expect(first == b"HTTP/1.1 503 Service Unavailable", f"a file where too many are open: {first}")
    if os.geteuid() == 0:
        # (root may read all, and others may not run what is in its home folder)
        with tempfile.TemporaryDirectory() as room:
            os.chmod(room, 0o755)
            shutil.copy(program, f"{room}/program")
            os.chmod(f"{folder}/plain", 0)
            status = Server(f"{room}/program", folder, user=65534).status("/plain")
            expect(status == 403, f"a file that may not be read: {status}")
            os.chmod(f"{folder}/plain", 0o644)


def chunked(length):
    """A content of this length in chunks."""
    chunk = b"10000\r\n" + bytes(1 << 16) + b"\r\n"
    return chunk * (length >> 16) + b"0\r\n\r\n"


def rejections(program, folder):
    """The rest of a content that is too long is read, and dropped (RFC 9112, section 9.6)."""
    for content, fields in ((chunked(10_000_000), b""), (chunked(10_000_000), b"Expect: 100-continue\r\n"),
                            (chunked(20_000_000), b"")):
        head = b"PUT / HTTP/1.1\r\nHost: a\r\n" + fields + b"Transfer-Encoding: chunked\r\n\r\n"
        with tempfile.TemporaryFile() as file:
            file.write(head + content)
            file.seek(0)
            done = subprocess.run([program, folder], stdin=file, capture_output=True)
            # (the first MiB was taken before the content proved too long)
            left, rest = len(head + content) - file.tell(), max(0, len(content) - MIB - (16 << 20))
        is_read = rest - 65_536 <= left <= rest
        expect(b"HTTP/1.1 413 " in done.stdout and is_read, f"{left} of {len(content)} bytes in chunks are left")
    for length, fields, rest in ((10_000_000, b"", 0), (20_000_000, b"", 20_000_000 - (16 << 20)),
                                 (10_000_000, b"Expect: 100-continue\r\n", None)):
        head = b"PUT / HTTP/1.1\r\nHost: a\r\n" + fields + b"Content-Length: %d\r\n\r\n" % length
        with tempfile.TemporaryFile() as file:
            file.write(head + bytes(length) + b"more")
            file.seek(0)
            done = subprocess.run([program, folder], stdin=file, capture_output=True)
            left = len(head) + length - file.tell()
        is_read = left >= 9_000_000 if rest is None else rest - 65_536 <= left <= rest
        expect(done.stdout.startswith(b"HTTP/1.1 413 ") and is_read, f"{left} of {length} bytes are left")


def options(program, folder):
    """Values of options: what is no field value is told before a request is read."""
    _, fields, _ = Server(program, folder, "--cache-control", " max-age=60 ").answer("GET", "/hello.txt")
    expect(("cache-control", "max-age=60") in fields, "blanks around Cache-Control")
    for words in (["--cache-control", "a\nb"], ["--cors-origin", "a.example"], ["--max-file", "x"], ["--other"]):
        done = subprocess.run([program, *words, folder], input=request("GET", "/hello.txt"), capture_output=True)
        expect(done.returncode == 2 and not done.stdout and words[0].encode() in done.stderr, f"the option {words}")
    done = subprocess.run([program, f"{folder}/hello.txt"], input=b"", capture_output=True)
    expect(done.returncode == 2 and b"hello.txt" in done.stderr, "a file for a folder")


def pages(program, folder):
    """A site's own pages: status and fields are those of the built-in page, whose place it takes."""
    with tempfile.TemporaryDirectory() as room:
        own = {"404": b"<p>not here: \xc3\xbc</p>\n", "501": b"", "301": b"<p>moved</p>\n", "500": b"x"}
        for name, content in own.items():
            with open(f"{room}/{name}.html", "wb") as file:
                file.write(content)
        plain = Server(program, folder, "--no-dates")
        own = Server(program, folder, "--no-dates", "--pages", room)
        for words, name in ((("GET", "/missing"), "404"), (("GET", "/%"), "404"), (("DELETE", "/hello.txt"), "501"),
                            (("GET", "/sub"), "301"), (("FOO", "/hello.txt"), "501"), (("OPTIONS", "/hello.txt"), None),
                            (("GET", "/hello.txt"), None), (("GET", "/hello.txt", 'If-Match: "x"'), None),
                            (("GET", "/hello.txt", "Range: bytes=13-"), None), (("HEAD", "/missing"), "404")):
            status, fields, content = plain.answer(*words)
            got, lines, page = own.answer(*words)
            if name is None or words[0] == "HEAD":
                wanted = content
            else:
                with open(f"{room}/{name}.html", "rb") as file:
                    wanted = file.read()
            is_same = got == status and without_length(lines) == without_length(fields)
            expect(is_same and page == wanted, f"the page of {words}: {got} {lines} {page!r}")
        os.mkdir(f"{room}/403.html")
        for pages in (room, f"{room}/missing", f"{room}/404.html"):
            done = subprocess.run([program, "--pages", pages, folder], input=request("GET", "/hello.txt"),
                                  capture_output=True)
            expect(done.returncode == 2 and not done.stdout and b"--pages" in done.stderr, f"pages at {pages}")


def dates(program, folder):
    """Date is now, and Last-Modified the time of the file."""
    before = int(time.time())
    fields = dict(Server(program, folder).answer("GET", "/hello.txt")[1])
    date = email.utils.parsedate_to_datetime(fields["date"]).timestamp()
    expect(before <= date <= time.time() and fields["date"].endswith(" GMT"), f"the date {fields['date']}")
    changed = email.utils.parsedate_to_datetime(fields["last-modified"]).timestamp()
    expect(changed == int(os.stat(f"{folder}/hello.txt").st_mtime), "the time of a file")
    # A file newer than now was last modified no later than its response (RFC 9110, section 8.8.2.1).
    with tempfile.TemporaryDirectory() as room:
        with open(f"{room}/new.txt", "w", encoding="ascii") as file:
            file.write("new\n")
        os.utime(file.name, (time.time() + 10**6,) * 2)
        for method in ("GET", "HEAD"):
            status, fields, _ = Server(program, room).answer(method, "/new.txt")
            told = {name: email.utils.parsedate_to_datetime(value) for name, value in fields
                    if name in ("date", "last-modified")}
            expect(status == 200 and told["last-modified"] <= told["date"], f"{method} of a file newer than now: {told}")


def without_length(lines):
    return [line for line in lines if line[0] != "content-length"]


def heads(program, folder):
    """HEAD has the status and the fields of GET, but maybe no length (RFC 9110, section 9.3.2), and no content."""
    server = Server(program, folder, "--no-dates", "--precompressed", "--cache-control", "max-age=60")
    for target in ("/hello.txt", "/big.bin", "/", "/sub", "/sub/", "/nothing", "/coded.css", "/link", "/empty.txt"):
        for fields in ([], ["Accept-Encoding: gzip"], ["If-None-Match: *"], ['If-Match: "x"']):
            status, got, _ = server.answer("GET", target, *fields)
            also, lines, content = server.answer("HEAD", target, *fields)
            is_same = (also, without_length(lines), content) == (status, without_length(got), b"")
            expect(is_same and set(lines) <= set(got), f"HEAD of {target} with {fields}: {lines}, not {got}")


def little_is_read(program, folder):
    """Of a long file no more is read than is sent, whichever codings it has."""
    for name in ("gib.bin", "gib.bin.br", "gib.bin.gz"):
        with open(f"{folder}/{name}", "wb") as file:
            file.truncate(1 << 30)
    server = Server(program, folder, "--precompressed")
    for fields in (["Range: bytes=5-9"], ["Range: bytes=5-9", "Accept-Encoding: br"], ["If-None-Match: *"]):
        first, count = server.begin("/gib.bin", *fields)
        is_answer = first[9:12] in (b"206", b"304")
        expect(is_answer and count < MIB, f"{count} bytes are read of 1 GiB for {fields}: {first}")
    for name in ("gib.bin", "gib.bin.br", "gib.bin.gz"):
        os.remove(f"{folder}/{name}")


def main():
    program, folder = sys.argv[1:]
    for run in (faults, rejections, options, pages, dates, heads, little_is_read):
        run(program, folder)
    sys.exit(0 if is_right() else 1)


if __name__ == "__main__":
    main()
