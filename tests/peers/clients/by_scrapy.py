"""Makes the requests of cases by Scrapy with its cache that follows the fields of responses.

    python3 -m clients.by_scrapy FOLDER < REQUESTS > ANSWERS

A case is its list of requests: method, URI, fields, content, and the pause after it; and whether no other case may run
meanwhile. An answer is a status, fields and content, what was raised in their place, and the seconds that it took.
"""
import asyncio
import json
import sys
import time
from collections.abc import AsyncIterator
from typing import Any

import scrapy
from scrapy.crawler import CrawlerProcess
from scrapy.utils.defer import maybe_deferred_to_future

AT_ONCE = 32
SETTINGS: dict[str, Any] = {
    "HTTPCACHE_ENABLED": True,
    "HTTPCACHE_POLICY": "scrapy.extensions.httpcache.RFC2616Policy",
    "TWISTED_REACTOR": "twisted.internet.asyncioreactor.AsyncioSelectorReactor",
    "REQUEST_FINGERPRINTER_IMPLEMENTATION": "2.7",
    # (what isn't of the cache)
    **{f"{name}_ENABLED": False for name in ("RETRY", "REDIRECT", "COOKIES", "TELNETCONSOLE", "LOG")},
    "CONCURRENT_REQUESTS": AT_ONCE,
    "CONCURRENT_REQUESTS_PER_DOMAIN": AT_ONCE,
    "DOWNLOAD_TIMEOUT": 20,
}


class Cases(scrapy.Spider):  # type: ignore[misc]
    name = "cases"

    def __init__(self, cases: list[Any], answers: dict[int, list[Any]]) -> None:
        super().__init__()
        self.cases, self.answers = cases, answers
        self.free = asyncio.Semaphore(AT_ONCE)

    def start_requests(self) -> list[scrapy.Request]:
        # (it runs while a request does)
        return [scrapy.Request("data:,", callback=self.run_all)]

    async def run_all(self, _: Any) -> AsyncIterator[Any]:
        await asyncio.gather(*(self.run(place) for place, (_, is_alone) in enumerate(self.cases) if not is_alone))
        for place, (_, is_alone) in enumerate(self.cases):
            if is_alone:
                await self.run(place)
        for request in self.start_requests()[1:]:
            yield request

    async def run(self, place: int) -> None:
        async with self.free:
            self.answers[place] = [await self.ask(*request) for request in self.cases[place][0]]

    async def ask(self, method: str, url: str, fields: list[Any], body: str | None, pause: float) -> list[Any]:
        headers: dict[str, list[bytes]] = {}
        for name, value in fields:
            headers.setdefault(name, []).append(value.encode("latin-1"))
        request = scrapy.Request(url, method=method, headers=headers, body=body, dont_filter=True)
        answer, began = [0, [], "", ""], time.time()
        try:
            assert self.crawler.engine is not None
            found = await maybe_deferred_to_future(self.crawler.engine.download(request))
            lines = [[name.decode().lower(), value.decode("latin-1")]
                     for name, values in found.headers.items() for value in values]
            answer = [found.status, lines, found.body.decode("latin-1"), ""]
        except Exception as error:
            answer = [0, [], "", repr(error) or "an exception"]
        took = time.time() - began
        await asyncio.sleep(pause)
        return [*answer, took]


def main() -> None:
    cases, answers = json.load(sys.stdin), dict[int, list[Any]]()
    process = CrawlerProcess({**SETTINGS, "HTTPCACHE_DIR": sys.argv[1]})
    process.crawl(Cases, cases=cases, answers=answers)
    process.start()
    json.dump([answers[place] for place in range(len(cases))], sys.stdout)


if __name__ == "__main__":
    main()
