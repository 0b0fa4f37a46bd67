"""Lists folders, and sends pages of the site's own, beside nginx's autoindex and error_page.

    listings.py PROGRAM FOLDER PORT

Makes FOLDER, which nginx serves at PORT with the same pages. Prints what is wrong; the status is 0 if nothing is.
"""
import os
import sys
import urllib.request
from html.parser import HTMLParser
from urllib.error import HTTPError
from urllib.parse import quote, unquote_to_bytes, urljoin

from answers import Server, expect, is_right

# (names that HTML or a URI reads otherwise; the last two are those of folders)
NAMES = ["a.txt", "B.txt", "a b", 'q"uote', "it's", "am&p", "&lt;", "<b>", "per%cent", "%41", "col:on",
         "semi;", "hash#", "que?ry", "gr\u00fcn", "new\nline", "~", "plus+", "sub", "in"]
# Names that no path of a URI can name here, or that stand for what isn't served.
HIDDEN = [b".hidden", b"back\\slash", b"\xff", b"out", b"dangling", b"round", b"pipe", b".well-known"]


class Links(HTMLParser):
    """The targets of the links of a page, and their texts."""

    def __init__(self, page):
        super().__init__()
        self.targets, self.texts, self.is_open = [], [], False
        self.feed(page.decode())
        self.close()

    def handle_starttag(self, tag, attrs):
        if tag == "a":
            self.targets.append(dict(attrs)["href"])
            self.texts.append("")
            self.is_open = True

    def handle_endtag(self, tag):
        self.is_open = self.is_open and tag != "a"

    def handle_data(self, data):
        if self.is_open:
            self.texts[-1] += data


def make(top):
    for folder in ("", "sub", "indexed", "odd/index.html", ".well-known"):
        os.makedirs(f"{top}/{folder}", exist_ok=True)
    for name in NAMES[:-2]:
        with open(f"{top}/{name}", "w", encoding="utf-8") as file:
            file.write(f"this is {name}")
    for name in (".hidden", "back\\slash", "sub/x", "indexed/index.html", ".well-known/y"):
        with open(f"{top}/{name}", "w", encoding="utf-8") as file:
            file.write(name)
    with open(os.path.join(os.fsencode(top), b"\xff"), "wb"):
        pass
    os.symlink("sub", f"{top}/in")
    os.symlink("/etc", f"{top}/out")
    os.symlink("nothing", f"{top}/dangling")
    os.symlink("round", f"{top}/round")
    os.mkfifo(f"{top}/pipe")


def nginx(port, target):
    try:
        with urllib.request.urlopen(f"http://127.0.0.1:{port}{target}") as response:
            return response.status, response.read()
    except HTTPError as error:
        return error.code, error.read()


def lists_all(server, top, port):
    """Each name has one link, which leads to it, and its text is the name."""
    status, fields, page = server.answer("GET", "/")
    fields = dict(fields)
    expect(status == 200 and fields["content-type"] == "text/html; charset=utf-8", f"a listing: {status} {fields}")
    expect(fields["etag"].startswith('"') and "last-modified" not in fields, f"its validators: {fields}")
    links = Links(page)
    names = [name + "/" if os.path.isdir(f"{top}/{name}") else name for name in [*NAMES, "indexed", "odd"]]
    wanted = [b"../", *sorted(os.fsencode(name) for name in names)]
    decoded = [unquote_to_bytes(target) for target in links.targets]
    expect(decoded == wanted, f"the links of a listing: {decoded}")
    expect([text.encode() for text in links.texts] == wanted, f"the texts of a listing: {links.texts}")
    for target, name in zip(links.targets[1:], wanted[1:]):
        path = urljoin("/", target)
        status, _, content = server.answer("GET", path)
        if name.endswith(b"/"):
            expect(status == (404 if name == b"odd/" else 200), f"a link to {name}: {status}")
        else:
            expect((status, content) == (200, b"this is " + name), f"a link to {name}: {status} {content!r}")
    # (nginx lists what it doesn't serve either)
    theirs = {unquote_to_bytes(target) for target in Links(nginx(port, "/")[1].replace(b"\xff", b"?")).targets}
    more = theirs - set(decoded)
    expect(set(decoded) <= theirs, f"what nginx doesn't list: {set(decoded) - theirs}")
    for name in more:
        status = server.status("/" + quote(name.rstrip(b"/")))
        is_hidden = name.rstrip(b"/") in HIDDEN and status in (403, 404)
        expect(is_hidden, f"nginx lists {name}, which is answered by {status}")


def is_a_representation(server, top):
    """Conditional requests and ranges of a listing are those of any representation."""
    _, fields, page = server.answer("GET", "/sub/")
    tag = dict(fields)["etag"]
    expect(Links(page).targets == ["../", "x"] and b"Index of /sub/" in page, f"the listing of a folder: {page}")
    expect(server.answer("GET", "/in/")[2] == page.replace(b"/sub/", b"/in/"), "the listing of a link to a folder")
    also, lines, content = server.answer("HEAD", "/sub/")
    lines, fields = ([line for line in it if line[0] != "date"] for it in (lines, fields))
    expect((also, lines, content) == (200, fields, b""), "HEAD of a listing")
    expect(server.status("/sub/", f"If-None-Match: {tag}") == 304, "a listing that didn't change")
    expect(server.status("/sub/", 'If-Match: "x"') == 412, "a listing with another tag")
    status, _, part = server.answer("GET", "/sub/", "Range: bytes=2-8", f"If-Range: {tag}")
    expect((status, part) == (206, page[2:9]), f"a range of a listing: {status} {part}")
    with open(f"{top}/sub/z", "w", encoding="utf-8"):
        pass
    status, fields, page = server.answer("GET", "/sub/", f"If-None-Match: {tag}")
    expect(status == 200 and Links(page).targets == ["../", "x", "z"], "a listing that changed")
    os.remove(f"{top}/sub/z")


def is_for_folders(server, program, top):
    """Only a folder without an index is listed, if its path ends in a slash and the option is there."""
    for target, status in (("/indexed/", 200), ("/odd/", 404), ("/index.html", 404), ("/sub/index.html", 404),
                           ("/sub", 301), ("/sub%2F", 404), ("/missing/", 404), ("/a.txt/", 404), ("/out/", 404),
                           ("/.well-known/", 200)):
        expect(server.status(target) == status, f"{target} where folders are listed: {server.status(target)}")
    expect(server.answer("GET", "/indexed/")[2] == b"indexed/index.html", "an index where folders are listed")
    expect(Server(program, top).status("/sub/") == 404, "a folder where none is listed")
    first, _ = server.begin("/sub/", descriptors=3)
    expect(first == b"HTTP/1.1 503 Service Unavailable", f"a folder where too many files are open: {first}")


def pages(program, top, port):
    """A page of the site's own is sent as nginx sends it."""
    with open(f"{top}/404.html", "wb") as file:
        file.write(b"<p>not here</p>\n")
    status, _, content = Server(program, top, "--pages", top).answer("GET", "/missing")
    expect((status, content) == nginx(port, "/missing"), f"a page of the site's own: {status} {content}")
    os.remove(f"{top}/404.html")


def main():
    program, top, port = sys.argv[1:]
    make(top)
    server = Server(program, top, "--listing")
    lists_all(server, top, port)
    is_a_representation(server, top)
    is_for_folders(server, program, top)
    pages(program, top, port)
    sys.exit(0 if is_right() else 1)


main()
