"""A caching reverse proxy whose store is `cache_store`: each request is a pass through it, which decides everything.

    python3 -m caching.store_proxy PORT ORIGIN shared|private
"""
import http.client
import sys
from typing import Any

from caching.proxy import Proxy, Server, ask_origin, headers
from common.fields import section
from common.passing import end

# As long as a lifetime is guessed.
DAY = 86400


class StoreProxy(Proxy):
    cache: Any

    def answer(self) -> None:
        length = int(self.headers.get("Content-Length") or 0)
        body = self.rfile.read(length) if length else None
        first = self.cache.begin(self.command, f"http://localhost{self.path}", section(self.headers.items()))
        reply = self.go_on(first, body)
        self.send(reply.status, list(reply.fields), reply.content)
        validation = first.validation() if reply.validates else None
        if validation is not None:
            self.go_on(validation, None)

    def go_on(self, passing: Any, body: bytes | None) -> Any:
        """Asks the origin until there is a reply."""
        step = passing.step
        while isinstance(step, headers.Ask):
            try:
                fetched = ask_origin(self.origin, self.command, self.path, step.apply(self.headers.items()), body)
            except (OSError, http.client.HTTPException):
                return passing.failed() or headers.Reply(504, (), b"")
            step = passing.came(fetched.status, section(fetched.came))
            if isinstance(step, headers.PassOn):
                if step.stores:
                    end(passing, fetched.body, fetched.is_whole)
                return headers.Reply(fetched.status, tuple(fetched.fields), fetched.body)
        return step


if __name__ == "__main__":
    StoreProxy.cache, StoreProxy.origin = headers.Cache(shared=sys.argv[3] == "shared", guess=DAY), int(sys.argv[2])
    Server(("127.0.0.1", int(sys.argv[1])), StoreProxy).serve_forever()
