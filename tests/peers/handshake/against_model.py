"""The library beside the model of RFC 6455 on random requests and responses."""
import base64
import random

from common.comparison import Comparison
from common.server import ByteFields
from handshake import model, ours

OWN = [b"chat", b"superchat", b"x-foo", b"a/b"]
# Elements of the lists, well formed and not: escapes in quoted-strings, and bytes past ASCII.
WORDS = [b"websocket", b"WebSocket", b"h2c", b"upgrade", b"Upgrade", b"keep-alive", b"close", b"", b"13", b"8", b"chat",
         b"superchat", b"Chat", b"a/b", b"x-foo", b"x-foo; a=1", b'x; a="1, 2"', b"permessage-deflate", b'"chat"',
         b'"a',
         b"\\", b'"a\\"b"', b"\xc3\xa9", b"\xe9", b"x;", b";", b" ", b"\t", b'x; a="1"', b'x; a="\\1\\2"',
         b'x; a="\\""',
         b'x; a="\xe9"', b'x; a="\\\xe9"', b'x; a=""', b"x; a; b; a", b"x;a=b;c", b"x; a=", b"x; =b", b'x; a="b" c',
         b'x; a="\\', b'x; a="\\,"', b'x; a="b\\', b"x a", b"=", b"websocket/13", b"13;", b"013"]
GOOD_EXTENSIONS = [b"x-foo; a=1", b"permessage-deflate", b'x; a="\\1\\2"', b"x; a; b; a", b"x-foo, x", b",x-foo,",
                   b"x;a=b;c"]
GOOD_PROTOCOLS = [b"chat", b"superchat, chat", b"Chat", b",chat,", b"mqtt, chat", b"chat, chat"]
USUAL = {b"host": [b"a"], b"upgrade": [b"websocket"], b"connection": [b"Upgrade"], b"sec-websocket-version": [b"13"]}


def draw_value(draw: random.Random) -> bytes:
    return b",".join(draw.choice([b"", b" ", b"\t"]) + draw.choice(WORDS) + draw.choice([b"", b" "])
                     for _ in range(draw.choice([1, 1, 2, 3])))


def draw_key(draw: random.Random) -> bytes:
    key = bytearray(base64.b64encode(draw.randbytes(draw.choice([16] * 12 + [15, 17, 18]))))
    if draw.random() < 0.15:
        key[draw.randrange(len(key))] = draw.choice(b"=A+/_-! z")
    return bytes(key)


def draw_fields(draw: random.Random, key_name: bytes, key: bytes, is_own: bool = False) -> ByteFields:
    """The fields of a handshake. What a client sends on its own, of which it makes its check, is well formed."""
    fields = []
    for name, usual in USUAL.items():
        values = usual if is_own or draw.random() < 0.9 else [draw_value(draw) for _ in range(draw.choice([0, 1, 2]))]
        fields += [(name, value) for value in values]
    fields += [(key_name, key)] * (1 if is_own else draw.choice([1] * 12 + [0, 2]))
    for name, good in ((b"sec-websocket-protocol", GOOD_PROTOCOLS), (b"sec-websocket-extensions", GOOD_EXTENSIONS)):
        is_good = is_own or draw.random() < 0.6
        fields += [(name, draw.choice(good) if is_good else draw_value(draw)) for _ in range(draw.choice([0, 0, 1, 1,
                                                                                                          2]))]
    draw.shuffle(fields)
    return [(name, value.strip(b" \t")) for name, value in fields]


def compare(seed: int, count: int) -> Comparison:
    draw, comparison = random.Random(seed), Comparison()
    for _ in range(count):
        key = draw_key(draw)
        sent = draw_fields(draw, b"sec-websocket-key", key)
        own = draw.sample(OWN, draw.randint(0, 3))
        method = draw.choice([b"GET"] * 12 + [b"POST", b"get"])
        version = draw.choice([b"HTTP/1.1"] * 12 + [b"HTTP/1.0", b"HTTP/2"])
        permitted, (status, fields) = model.statuses(method, version, sent), ours.accept(own, method, version, sent)
        comparison.add("accept", permitted, status, lambda: f"{own} {method} {version} {sent}")
        if status == 101 and status in permitted:
            lines = [(b"connection", b"upgrade"), (b"sec-websocket-accept", model.accept_key(key)),
                     *((b"sec-websocket-protocol", it) for it in model.taken(own, sent)), (b"upgrade", b"websocket")]
            comparison.add("fields of a 101", [sorted(lines)], sorted(fields), lambda: f"{own} {sent}")
        asked = draw_fields(draw, b"sec-websocket-key", key, is_own=True)
        accept = model.accept_key(key) if draw.random() < 0.9 else draw_key(draw)
        response = draw_fields(draw, b"sec-websocket-accept", accept)
        code = draw.choice([101] * 12 + [200, 400])
        comparison.add("check", model.opens(asked, code, response), ours.opens(asked, code, response),
                       lambda: f"{asked} {code} {response}")
    return comparison
