"""Makes the folder that both servers serve, and beside it one that neither should."""
import gzip
import os
import sys

WRITTEN = 1_700_000_000  # Tue, 14 Nov 2023 22:13:20 GMT


def make(top):
    files = {
        "hello.txt": b"Hello, world\n",
        "index.html": b"<title>top</title>\n",
        "page.html": b"<p>page</p>\n",
        "style.css": b"a { color: red }\n",
        "script.js": b"let a = 1;\n",
        "data.json": b"{}\n",
        "picture.png": b"\x89PNG\r\n\x1a\n" + bytes(range(256)),
        "picture.jpg": b"\xff\xd8\xff" + bytes(range(200)),
        "picture.svg": b"<svg xmlns='http://www.w3.org/2000/svg'/>\n",
        "paper.pdf": b"%PDF-1.4\n",
        "empty.txt": b"",
        "big.bin": bytes(i * i % 251 for i in range(200_000)),
        "plain": b"no suffix\n",
        "with space.txt": b"space\n",
        "gr\u00fcn.txt": b"umlaut\n",
        "a+b.txt": b"plus\n",
        ".hidden": b"hidden\n",
        ".well-known/security.txt": b"Contact: mailto:security@a.example\n",
        ".well-known/.secret": b"secret\n",
        ".well-known.txt": b"not below it\n",
        "sub/.well-known/c.txt": b"c\n",
        "sub/index.html": b"<title>sub</title>\n",
        "sub/a.txt": b"a\n",
        "sub/.secret": b"secret\n",
        "none/b.txt": b"b\n",
        "coded.css": b"a { color: blue }\n" * 50,
        "coded.css.gz": gzip.compress(b"a { color: blue }\n" * 50, mtime=0),
        "coded.css.br": b"in another coding\n",
        "../outside/secret.txt": b"secret\n",
    }
    for name, content in files.items():
        path = os.path.join(top, name)
        os.makedirs(os.path.dirname(path), exist_ok=True)
        with open(path, "wb") as file:
            file.write(content)
        os.utime(path, (WRITTEN, WRITTEN))
    links = {
        "link": os.path.join(os.path.abspath(top), "../outside/secret.txt"),
        "away": "../outside",
        "passwd": "/etc/passwd",
        "alias.txt": "hello.txt",
        "within": "sub",
        "dangling": "nothing",
        "round": "round",
    }
    for name, target in links.items():
        os.symlink(target, os.path.join(top, name))


if __name__ == "__main__":
    make(sys.argv[1])
