"""Asks this server and nginx the same, and compares what they answer.

    compare.py OURS NGINX [TABLE]

OURS and NGINX are ports. The requests are those of requests.txt, the differences that are known those of
differences.txt. The status is 1 if a request is answered otherwise in a way that isn't known, or if a known
difference doesn't come. The differences are written to TABLE by their reasons; those that are nothing but a page for
people are counted alone.
"""
import fnmatch
import os
import re
import socket
import sys

HERE = os.path.dirname(os.path.abspath(__file__))
# The one reason that the table leaves out.
PAGE = "The page for people is another one."
# How many requests of a reason the table shows.
MOST_SHOWN = 8
# What is compared, in this order.
PARTS = ["status", "etag", "last-modified", "content-range", "content-type", "content-length", "location", "body"]


def ask(port, message):
    """The bytes that come back for a message, until the end of the connection."""
    with socket.create_connection(("127.0.0.1", port), timeout=10) as connection:
        connection.sendall(message)
        answer = b""
        while True:
            try:
                more = connection.recv(1 << 16)
            except (ConnectionResetError, TimeoutError):
                break
            if not more:
                return answer
            answer += more
    return answer


def read(answer):
    """Status, fields and body of a response. A response of HTTP/0.9 has no status."""
    head, _, body = answer.partition(b"\r\n\r\n")
    lines = head.decode("latin-1").split("\r\n")
    status = lines[0].split(" ")[1] if lines[0].startswith("HTTP/") else "none"
    fields = {}
    for line in lines[1:]:
        name, _, value = line.partition(":")
        fields[name.lower()] = value.strip()
    return status, fields, body


def parts_of(fields, body):
    """The parts of a multipart body: type, range and bytes of each, so that the boundary doesn't count."""
    boundary = re.search(r'boundary="?([^";]+)"?', fields["content-type"]).group(1).encode()
    pieces = (b"\r\n" + body).split(b"\r\n--" + boundary)
    if pieces[-1].strip() != b"--":
        return ["no end"]
    parts = []
    for piece in pieces[1:-1]:
        head, _, content = piece.partition(b"\r\n\r\n")
        lines = head.decode("latin-1").strip().split("\r\n")
        parts.append((sorted(line.split(";")[0].lower() for line in lines), content))
    return parts


def seen(answer):
    """What is compared of a response."""
    status, fields, body = read(answer)
    kind = fields.get("content-type", "-").split(";")[0]
    length = fields.get("content-length", "-")
    if kind == "multipart/byteranges":
        body, length = parts_of(fields, body), "of the parts"
    location = re.sub(r"^https?://[^/]*", "", fields.get("location", "-"))
    return {
        "status": status,
        "etag": "there" if "etag" in fields else "-",
        "last-modified": fields.get("last-modified", "-"),
        "content-range": fields.get("content-range", "-"),
        "content-type": kind,
        "content-length": length,
        "location": location,
        "body": body,
    }


def message(row, known):
    """The bytes of a request."""
    method, target, fields = row
    lines = [f"{method} {target} HTTP/1.1", "Host: a", "Connection: close"]
    body = ""
    for field in fields:
        for word, value in known.items():
            field = field.replace("{" + word + "}", value)
        if field.startswith("Content-Length:"):
            body = "x" * int(field.split(":")[1])
        lines.append(field)
    return ("\r\n".join(lines) + "\r\n\r\n" + body).encode()


def rows():
    for line in open(os.path.join(HERE, "requests.txt"), encoding="utf-8"):
        line = line.rstrip("\n")
        if line and not line.startswith("#"):
            first, *fields = line.split(" | ")
            method, target = first.split(" ", 1)
            yield line, (method, target, fields)


def known_differences():
    """Rows: which parts, of which request, and why. A star stands for anything."""
    known = []
    for line in open(os.path.join(HERE, "differences.txt"), encoding="utf-8"):
        line = line.rstrip("\n")
        if line and not line.startswith("#"):
            parts, statuses, request, why = (word.strip() for word in line.split(" ; "))
            known.append((parts.split(), statuses, request, why))
    return known


def plain(value):
    """How a part stands in the table."""
    if isinstance(value, list):
        return f"{len(value)} parts"
    if isinstance(value, bytes):
        return f"{len(value)} bytes"
    return value


def short(line):
    """A request as the table shows it."""
    line = re.sub(r"^GET /hello\.txt \| ", "", line)
    return "`" + re.sub(r"^GET (?=[/*h])", "", line).replace("|", "\\|") + "`"


def statuses_of(ours, theirs, parts):
    """The statuses of ours and of nginx, or the one of both with what differs beside it."""
    return f"{ours}, {theirs}" if ours != theirs else f"{ours}: {', '.join(parts)}"


def requests_of(lines):
    """The requests of a reason: the first four of more than eight."""
    shown = [short(line) for line in (lines if len(lines) <= MOST_SHOWN else lines[: MOST_SHOWN // 2])]
    return ", ".join(shown) + (f", and {len(lines) - len(shown)} more" if len(shown) < len(lines) else "")


def order(why):
    """The place of a reason: by the first section of RFC 9110 that it names."""
    section = re.search(r"\(sections? ([\d.]+\d)", why)
    return (0, [int(word) for word in section[1].split(".")]) if section else (1, [])


def write_table(path, table):
    with open(path, "w", encoding="utf-8") as file:
        file.write("| Why | Ours, nginx's | Requests |\n|---|---|---|\n")
        for why, cases in sorted(table.items(), key=lambda item: order(item[0])):
            statuses = "; ".join(dict.fromkeys(status for status, _ in cases))
            file.write(f"| {why} | {statuses} | {requests_of([line for _, line in cases])} |\n")


def pattern(request):
    return request.replace("[", "[[]")


def main():
    ports = {"ours": int(sys.argv[1]), "nginx": int(sys.argv[2])}
    known = known_differences()
    used = [False] * len(known)
    table, unknown, count, otherwise = {}, 0, 0, 0
    validators = {}
    for line, row in rows():
        count += 1
        answers = {}
        for server, port in ports.items():
            key = (server, row[1])
            if key not in validators:
                _, fields, _ = read(ask(port, message(("HEAD", row[1], []), {})))
                tag = fields.get("etag", '"none"')
                validators[key] = {
                    "etag": tag,
                    "tag": tag.strip('"'),
                    "weak": "W/" + tag,
                    "modified": fields.get("last-modified", "Tue, 14 Nov 2023 22:13:20 GMT"),
                }
            answers[server] = seen(ask(port, message(row, validators[key])))
        ours, theirs = answers["ours"], answers["nginx"]
        differing = [part for part in PARTS if ours[part] != theirs[part]]
        statuses = f"{ours['status']} {theirs['status']}"
        reasons = []
        for part in differing:
            for index, (parts, status, request, why) in enumerate(known):
                if part in parts and fnmatch.fnmatchcase(statuses, status) and fnmatch.fnmatchcase(line, pattern(request)):
                    used[index] = True
                    if why not in reasons:
                        reasons.append(why)
                    break
            else:
                unknown += 1
                print(f"{line}: {part}: ours {plain(ours[part])}, nginx {plain(theirs[part])} ({statuses})")
        if differing:
            otherwise += 1
            why = " ".join(reason for reason in reasons if reason != PAGE)
            table.setdefault(why, []).append((statuses_of(ours["status"], theirs["status"], differing), line))
    for index, (parts, status, request, why) in enumerate(known):
        if not used[index]:
            unknown += 1
            print(f"no such difference: {' '.join(parts)} ; {status} ; {request} ; {why}")
    pages = len(table.pop("", []))
    if len(sys.argv) > 3:
        write_table(sys.argv[3], table)
    print(f"{count} requests, {count - otherwise} answered alike, {pages} but for a page, {otherwise - pages} otherwise, "
          f"{unknown} of these unexplained")
    sys.exit(1 if unknown else 0)


main()
