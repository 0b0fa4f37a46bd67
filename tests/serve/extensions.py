"""Holds the media types of files to nginx's table.

    extensions.py PROGRAM FOLDER TYPES

TYPES is nginx's table, as /etc/nginx/mime.types. Makes FOLDER, with a file of each extension that the table or
extensions.txt names, in lower and in upper case. The types that differ from nginx's are those of extensions.txt. Prints
what is wrong; the status is 0 if nothing is.
"""
import os
import re
import sys

from answers import Server, expect, is_right

HERE = os.path.dirname(os.path.abspath(__file__))
# What a file is of which nothing is known.
ANY_BYTES = "application/octet-stream"


def types_in(path):
    """The types of a table of nginx's, by their extensions."""
    text = re.sub(r"#.*", "", open(path, encoding="utf-8").read())
    rows = re.search(r"types\s*{(.*)}", text, re.DOTALL)[1].split(";")
    return {extension: words[0] for words in map(str.split, rows) for extension in words[1:]}


def known_differences():
    """Rows: extensions, this server's type and nginx's, and why. A hyphen stands for none."""
    for line in open(os.path.join(HERE, "extensions.txt"), encoding="utf-8"):
        line = line.rstrip("\n")
        if line and not line.startswith("#"):
            extensions, ours, theirs, _ = (word.strip() for word in line.split(" ; "))
            for extension in extensions.split():
                yield extension, ours, theirs


def main():
    program, folder, path = sys.argv[1:]
    table = types_in(path)
    expected = dict(table)
    for extension, ours, theirs in known_differences():
        expect(table.get(extension, "-") == theirs and ours != theirs, f"nginx's type of {extension} is {theirs}")
        expected[extension] = ours
    os.makedirs(folder, exist_ok=True)
    server = Server(program, folder)
    for extension, kind in expected.items():
        # (text has a charset)
        value = kind + ("; charset=utf-8" if kind.startswith("text/") else "")
        for name in (f"file.{extension}", f"FILE.{extension.upper()}"):
            with open(f"{folder}/{name}", "w", encoding="utf-8") as file:
                file.write("a")
            status, fields, _ = server.answer("HEAD", f"/{name}")
            given = dict(fields).get("content-type")
            expect(status == 200 and given == value, f"{name} is {given}, and not {value} ({status})")
    alike = sum(kind != ANY_BYTES and table.get(extension) == kind for extension, kind in expected.items())
    print(f"{len(table)} extensions in nginx's table, {alike} of its types are ours, "
          f"{sum(kind != ANY_BYTES for kind in expected.values())} extensions in all have a type")
    sys.exit(0 if is_right() else 1)


main()
