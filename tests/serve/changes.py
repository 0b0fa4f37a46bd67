"""Asks for a file over one connection while it changes.

    changes.py PROGRAM FOLDER

The server keeps short files that it read. Each answer has to be that of the file as it stands: its content, and a tag
that is the same exactly if the content is. At last another file of the same length and time takes the name of one that
is kept, and a link to a file outside the folder takes it again and again while the file is asked for. So does a link to
a folder outside while a folder is listed.
"""
import os
import subprocess
import sys
import threading
import time

REQUEST = b"GET /file.txt HTTP/1.1\r\nHost: a\r\n\r\n"


def answer(server, request=REQUEST):
    """The status, the tag and the body of the next response."""
    server.stdin.write(request)
    server.stdin.flush()
    head = []
    while (line := server.stdout.readline().strip()):
        head.append(line.decode())
    fields = dict(line.split(": ", 1) for line in head[1:])
    body = server.stdout.read(int(fields["content-length"]))
    return head[0].split(" ")[1], fields.get("etag"), body


def replaced(server, path):
    """How many answers are wrong when another file of the same length and time takes the name."""
    other = f"{path}.other"
    for name, content in (path, b"old\n"), (other, b"new\n"):
        with open(name, "wb") as file:
            file.write(content)
        os.utime(name, (1_700_000_000, 1_700_000_000))
    # A file that changed less than two seconds ago isn't kept.
    time.sleep(3.5)
    before = [answer(server)[2] for _ in range(2)]
    os.replace(other, path)
    after = answer(server)[2]
    if before != [b"old\n"] * 2 or after != b"new\n":
        print(f"replaced: {before} {after}")
        return 1
    return 0


def raced(server, path):
    """How many answers have what a link leads to outside the folder."""
    outside, inside, link = (f"{os.path.dirname(path)}.{name}" for name in ("outside", "inside", "link"))
    with open(outside, "wb") as file:
        file.write(b"outside\n")
    is_done = threading.Event()

    def swap():
        while not is_done.is_set():
            os.symlink(outside, link)
            os.replace(link, path)
            with open(inside, "wb") as file:
                file.write(b"inside\n")
            os.replace(inside, path)

    swapping = threading.Thread(target=swap)
    swapping.start()
    sent = [answer(server)[2] for _ in range(4000)]
    is_done.set()
    swapping.join()
    leaked = sent.count(b"outside\n")
    if leaked:
        print(f"raced: {leaked} of {len(sent)} answers are of a file outside the folder")
    return int(leaked > 0)


def raced_listing(program, folder):
    """How many listings have a name that a folder outside the folder has."""
    moving, link, aside, outside = (f"{folder}{name}" for name in ("/moving", ".link", ".aside", ".others"))
    for path, name in (moving, "inside"), (outside, "outside"):
        os.makedirs(path)
        with open(f"{path}/{name}", "wb"):
            pass
    os.symlink(os.path.abspath(outside), link)
    is_done = threading.Event()

    def swap():
        while not is_done.is_set():
            os.rename(moving, aside)
            os.rename(link, moving)
            os.rename(moving, link)
            os.rename(aside, moving)

    with subprocess.Popen([program, "--listing", folder], stdin=subprocess.PIPE, stdout=subprocess.PIPE) as server:
        swapping = threading.Thread(target=swap)
        swapping.start()
        pages = [answer(server, REQUEST.replace(b"file.txt", b"moving/"))[2] for _ in range(4000)]
        is_done.set()
        swapping.join()
        server.stdin.close()
    leaked, right = (sum(name in page for page in pages) for name in (b"outside", b"inside"))
    if leaked or not right:
        print(f"raced: of {len(pages)} listings {leaked} are of a folder outside, and {right} of the one inside")
    return int(leaked > 0 or not right)


def main():
    program, folder = sys.argv[1:]
    os.makedirs(folder)
    path = os.path.join(folder, "file.txt")
    server = subprocess.Popen([program, folder], stdin=subprocess.PIPE, stdout=subprocess.PIPE)
    # What the file holds, and when it was written.
    steps = [(b"one\n", 1_700_000_000), (b"one\n", 1_700_000_000), (b"two\n", 1_700_000_001), (b"three\n", 1_700_000_001),
             (b"one\n", 1_700_000_002), (b"two\n", None), (b"six\n", None), (b"ten\n", None)]
    tags, wrong = {}, 0
    for content, written in steps:
        with open(path, "wb") as file:
            file.write(content)
        if written:
            os.utime(path, (written, written))
        for _ in range(3):
            status, tag, body = answer(server)
            if status != "200" or body != content or not tag or tags.setdefault(content, tag) != tag:
                wrong += 1
                print(f"{content}: {status} {tag} {body}")
    if len(set(tags.values())) != len(tags):
        wrong += 1
        print(f"contents share a tag: {tags}")
    wrong += replaced(server, path) + raced(server, path) + raced_listing(program, folder)
    server.stdin.close()
    sys.exit(1 if wrong or server.wait() else 0)


main()
