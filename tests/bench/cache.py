"""Times hits of CacheControl, as pip has it: prints the nanoseconds of one, the least of some rounds.

    cache.py RESPONSES ROUNDS LOOKUPS
"""
import sys
import time
from email.utils import formatdate

from pip._vendor import requests
from pip._vendor.cachecontrol import CacheController, __version__
from pip._vendor.cachecontrol.cache import DictCache
from pip._vendor.urllib3 import HTTPResponse

IN_TURN = 1000
REQUEST = {"Host": "www.example.com", "Accept": "text/html,application/xhtml+xml,application/xml;q=0.9,*/*;q=0.8",
           "User-Agent": "Mozilla/5.0 (X11; Linux x86_64; rv:132.0) Gecko/20100101 Firefox/132.0",
           "Accept-Language": "en-US,en;q=0.5", "Accept-Encoding": "gzip, deflate, br, zstd"}
RESPONSE = {"Date": formatdate(usegmt=True), "Cache-Control": "public, max-age=3600", "Vary": "Accept-Encoding",
            "ETag": '"33a64df551425fcc"', "Content-Type": "text/html; charset=utf-8"}


def request(index: int) -> requests.PreparedRequest:
    return requests.Request("GET", f"https://www.example.com/articles/{index}", REQUEST).prepare()


count, rounds, lookups = map(int, sys.argv[1:])
controller = CacheController(DictCache())
for index in range(count):
    response = HTTPResponse(body=b"", headers=RESPONSE, status=200, preload_content=False)
    controller.cache_response(request(index), response, b"")
step = max(count // IN_TURN, 1)
asked = [request(index * step) for index in range(min(count, IN_TURN))]
least = float("inf")
for _ in range(rounds):
    start = time.perf_counter_ns()
    for at in range(lookups):
        if not controller.cached_request(asked[at % len(asked)]):
            sys.exit("a lookup isn't a hit")
    least = min(least, (time.perf_counter_ns() - start) // lookups)
print(f"CacheControl {__version__} of pip\t{least}")
