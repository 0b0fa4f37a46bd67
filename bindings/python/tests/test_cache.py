"""The cache and its passes: what their classes add to the calls of the library."""

import pickle
import threading
import unittest
from datetime import datetime, timezone
from typing import Any, Dict, List, Optional, Tuple
from unittest import mock

from typed_headers import Ask, Cache, HeaderError, InvalidSection, OutOfOrder, Pass, PassOn, Reply, Wait, _library

FRESH = {"Cache-Control": "max-age=60", "ETag": '"a"'}
A = "http://a.example/a"
B = "http://a.example/b"


def store(
    cache: Cache,
    content: bytes,
    fields: Dict[str, str] = FRESH,
    target: str = A,
    asked: Optional[Dict[str, str]] = None,
    complete: bool = True,
) -> bool:
    """Whether what the origin answers at the time 1000 is stored."""
    asking = cache.begin("GET", target, asked or {}, now=1000)
    return asking.came(200, fields, now=1000) == PassOn(True) and ended(asking, content, complete)


def ended(asking: Pass, content: bytes, complete: bool = True) -> bool:
    """Whether the response that passes on is stored, with content that comes in two pieces."""
    asking.received(content[:3])
    asking.received(content[3:])
    return asking.ended(complete=complete, now=1000)


def filled(content: bytes = b"hello", most: int = 1 << 20) -> Cache:
    cache = Cache(shared=True, content=most)
    store(cache, content)
    return cache


def got(cache: Cache, target: str = A, now: int = 1010, **asked: str) -> Optional[bytes]:
    """The content that a client gets of the cache: `None` if the origin is asked."""
    step = cache.begin("GET", target, {name.replace("_", "-"): it for name, it in asked.items()}, now=now).step
    return step.content if isinstance(step, Reply) else None


class CacheTest(unittest.TestCase):
    def test_replies_by_what_is_stored(self) -> None:
        cache = filled()
        step = cache.begin("GET", A, {}, now=1010).step
        assert isinstance(step, Reply)
        self.assertEqual((step.status, step.content, step.validates), (200, b"hello", False))
        self.assertEqual(dict(step.fields)["age"], "10")
        self.assertEqual(cache.begin("GET", B, {}, now=1010).step, Ask())
        head = cache.begin("HEAD", A, {}, now=1010).step
        assert isinstance(head, Reply)
        self.assertIsNone(head.content)

    def test_takes_times_with_a_zone(self) -> None:
        step = filled().begin("GET", A, {}, now=datetime(1970, 1, 1, 0, 17, 0, tzinfo=timezone.utc)).step
        assert isinstance(step, Reply)
        self.assertEqual(dict(step.fields)["age"], "20")

    def test_asks_the_origin_by_the_stored_validators(self) -> None:
        step = filled().begin("GET", A, {"If-None-Match": '"b"'}, now=1100).step
        assert isinstance(step, Ask)
        self.assertEqual(step.apply([("If-None-Match", '"b"'), ("X", "y")]), [("X", "y"), ("if-none-match", '"a"')])
        self.assertEqual(Ask().apply([("If-None-Match", '"b"')]), [("If-None-Match", '"b"')])

    def test_answers_conditions_and_ranges(self) -> None:
        cache = filled(bytes(range(256)) * 100)
        part = cache.begin("GET", A, {"Range": "bytes=-2"}, now=1010).step
        assert isinstance(part, Reply)
        self.assertEqual((part.status, part.content), (206, b"\xfe\xff"))
        self.assertEqual(dict(part.fields)["content-range"], "bytes 25598-25599/25600")
        same = cache.begin("GET", A, {"If-None-Match": '"a"'}, now=1010).step
        assert isinstance(same, Reply)
        self.assertEqual((same.status, same.content), (304, None))
        none = cache.begin("GET", A, {"Range": "bytes=25600-"}, now=1010).step
        assert isinstance(none, Reply)
        self.assertEqual((none.status, none.content, dict(none.fields)["content-range"]), (416, b"", "bytes */25600"))

    def test_sends_what_a_304_lets_answer_once(self) -> None:
        cache = Cache(shared=True)
        for target, page in ((A, b"page of a"), (B, b"page of b")):
            store(cache, page, FRESH, target)
        first, second = (cache.begin("GET", it, {}, now=1100) for it in (A, B))
        for validating, page in ((first, b"page of a"), (second, b"page of b")):
            step = validating.came(304, {"ETag": '"a"', "Cache-Control": "no-store"}, now=1100)
            assert isinstance(step, Reply)
            self.assertEqual(step.content, page)
        self.assertEqual((got(cache), got(cache, B)), (None, None))

    def test_sends_each_user_the_own_page_on_an_error(self) -> None:
        cache = Cache(shared=True)
        for user in ("alice", "bob"):
            fields = {"Cache-Control": "max-age=10, stale-if-error=600", "Vary": "Cookie", "ETag": f'"{user}"'}
            store(cache, f"page of {user}".encode(), fields, asked={"Cookie": user})
        waits, second = (cache.begin("GET", A, {"Cookie": "alice"}, now=1100) for _ in range(2))
        # Another request of hers is validated in the meantime.
        self.assertIsInstance(second.came(304, {"ETag": '"alice"'}, now=1100), Reply)
        step = waits.failed(now=1100)
        self.assertEqual(step and step.content, b"page of alice")

    def test_decides_at_the_time_of_the_error(self) -> None:
        for now, content in ((1025, b"hello"), (1100, None)):
            cache = Cache(shared=True)
            store(cache, b"hello", {"Cache-Control": "max-age=10, stale-if-error=20", "ETag": '"1"'})
            asking = cache.begin("GET", A, {}, now=1020)
            step = asking.came(503, {}, now=now)
            self.assertEqual(step.content if isinstance(step, Reply) else None, content)

    def test_validates_what_was_served_stale(self) -> None:
        cache = Cache(shared=True)
        store(cache, b"hello", {"Cache-Control": "max-age=10, stale-while-revalidate=60", "ETag": '"1"'})
        served = cache.begin("GET", A, {}, now=1020)
        assert isinstance(served.step, Reply)
        self.assertTrue(served.step.validates)
        validating = served.validation(now=1020)
        assert validating is not None
        fields = (("cache-control", "no-cache"), ("if-none-match", '"1"'))
        self.assertEqual(validating.step, Ask(fields, ("cache-control",)))
        self.assertIsInstance(validating.came(304, {"ETag": '"1"'}, now=1020), Reply)
        self.assertEqual(got(cache, now=1025), b"hello")
        self.assertIsNone(served.validation(now=1025))

    def test_validates_by_the_request_of_the_client(self) -> None:
        # Nothing is stored for a request with `no-store`, whoever is answered (RFC 9111, section 5.2.1.5).
        cache = Cache(shared=True)
        store(cache, b"hello", {"Cache-Control": "max-age=10, stale-while-revalidate=60", "ETag": '"1"'})
        served = cache.begin("GET", A, {"Cache-Control": "no-store"}, now=1020)
        self.assertTrue(isinstance(served.step, Reply) and served.step.validates)
        validating = served.validation(now=1020)
        assert validating is not None
        self.assertEqual(validating.came(200, FRESH, now=1020), PassOn(False))
        # That only a stored response may be sent is for the client, as its range and its conditions are.
        asked = {"Cache-Control": "only-if-cached", "Range": "bytes=0-0", "If-None-Match": '"0"', "X": "y"}
        served = cache.begin("GET", A, asked, now=1020)
        validating = served.validation(now=1020)
        assert validating is not None and isinstance(validating.step, Ask)
        fields = [("X", "y"), ("cache-control", "no-cache"), ("if-none-match", '"1"')]
        self.assertEqual(validating.step.apply(asked.items()), fields)
        self.assertEqual(validating.came(200, FRESH, now=1020), PassOn(True))

    def test_stores_nothing_that_was_asked_before_a_removal(self) -> None:
        cache = Cache(shared=True)
        asking = cache.begin("GET", A, {}, now=1000)
        self.assertEqual(asking.came(200, FRESH, now=1000), PassOn(True))
        putting = cache.begin("PUT", A, {}, now=1000)
        self.assertEqual(putting.came(204, {}, now=1000), PassOn(False))
        self.assertFalse(ended(asking, b"old"))
        self.assertIsNone(got(cache))

    def test_removes(self) -> None:
        cache = filled()
        for status, content in ((500, b"hello"), (201, None)):
            cache.begin("POST", A, {}, now=1000).came(status, {}, now=1000)
            self.assertEqual(got(cache), content)
        cache = filled()
        cache.remove(A)
        self.assertIsNone(got(cache))

    def test_a_step_out_of_order_changes_nothing(self) -> None:
        cache = Cache(shared=True)
        asking = cache.begin("GET", A, {}, now=1000)
        with self.assertRaisesRegex(OutOfOrder, "^ended: "):
            asking.ended(now=1000)
        with self.assertRaisesRegex(OutOfOrder, "^received: "):
            asking.received(b"h")
        asking.came(200, FRESH, now=1000)
        with self.assertRaises(OutOfOrder) as raised:
            asking.came(200, FRESH, now=1000)
        self.assertEqual(raised.exception.step, "came")
        self.assertEqual(str(pickle.loads(pickle.dumps(raised.exception))), str(raised.exception))
        with self.assertRaisesRegex(OutOfOrder, "^failed: "):
            asking.failed(now=1000)
        self.assertTrue(ended(asking, b"hello"))
        self.assertEqual(got(cache), b"hello")
        asking.close()
        with self.assertRaises(OutOfOrder):
            asking.ended(now=1000)

    def test_waits_for_another_that_asks(self) -> None:
        woken: List[int] = []
        cache = Cache(shared=True, wait=10)
        first, second = (cache.begin("GET", A, {}, now=1000) for _ in range(2))
        self.assertEqual((first.step, second.step), (Ask(), Wait()))
        self.assertEqual(second.resume(now=1009, wake=lambda: woken.append(1)), Wait())
        self.assertEqual(first.came(200, FRESH, now=1000), PassOn(True))
        self.assertTrue(ended(first, b"hello"))
        self.assertEqual(woken, [1])
        reply = second.resume(now=1009)
        self.assertEqual(reply.content if isinstance(reply, Reply) else None, b"hello")
        with self.assertRaisesRegex(OutOfOrder, "^resume: "):
            second.resume(now=1009)

    def test_waits_no_longer_than_is_told(self) -> None:
        cache = Cache(shared=True, wait=10)
        first, second = (cache.begin("GET", A, {}, now=1000) for _ in range(2))
        self.assertEqual(second.resume(now=1009), Wait())
        self.assertEqual(second.resume(now=1010), Ask())
        third = cache.begin("GET", A, {}, now=1010)
        self.assertEqual(third.step, Wait())
        second.close()
        self.assertEqual(third.resume(now=1010), Ask())
        first.close()

    def test_only_a_get_for_the_whole_waits(self) -> None:
        cache = Cache(shared=True, wait=10)
        first = cache.begin("GET", A, {}, now=1000)
        others: List[Tuple[str, str, Dict[str, str]]] = [
            ("HEAD", A, {}), ("GET", A, {"Range": "bytes=0-1"}), ("POST", A, {}), ("GET", B, {}),
        ]
        for method, target, fields in others:
            self.assertEqual(cache.begin(method, target, fields, now=1000).step, Ask())
        self.assertIsNone(first.failed(now=1000))
        self.assertEqual(cache.begin("GET", A, {}, now=1000).step, Ask())

    def test_stays_within_its_limits(self) -> None:
        cache = filled(most=3000)
        self.assertFalse(store(cache, bytes(3000), target=B))
        self.assertFalse(store(cache, b"half", target=B, complete=False))
        self.assertEqual(got(cache), b"hello")
        self.assertTrue(store(cache, b"long", target=B))
        self.assertIsNone(got(cache))

    def test_guesses_a_lifetime_if_told(self) -> None:
        dates = {"Last-Modified": "Thu, 01 Jan 1970 00:00:00 GMT", "Date": "Thu, 01 Jan 1970 00:16:40 GMT"}
        for guess, content in ((0, None), (60, b"hello")):
            cache = Cache(shared=True, guess=guess)
            store(cache, b"hello", dates)
            self.assertEqual(got(cache, now=1050), content)

    def test_serves_a_reload_of_what_is_immutable(self) -> None:
        for immutable, content in ((False, None), (True, b"hello")):
            cache = Cache(shared=True, immutable=immutable)
            store(cache, b"hello", {"Cache-Control": "max-age=60, immutable"})
            self.assertEqual(got(cache, Cache_Control="max-age=0"), content)

    def test_is_governed_by_the_first_targeted_field(self) -> None:
        fields = {"Cache-Control": "no-store", "X-CDN-Control": "max-age=60", "CDN-Cache-Control": "no-store"}
        for targets, is_stored in (((), False), (["x-cdn-control", "CDN-Cache-Control"], True)):
            self.assertEqual(store(Cache(shared=True, targets=targets), b"", fields), is_stored)

    def test_says_what_is_wrong(self) -> None:
        cache = filled()
        with self.assertRaises(InvalidSection):
            cache.begin("GET", A, "no field\n")
        with self.assertRaises(HeaderError):
            cache.begin("G T", A, {})
        asking = cache.begin("GET", B, {})
        with self.assertRaises(HeaderError):
            asking.came(99, FRESH)
        self.assertEqual(asking.came(404, {"Cache-Control": "no-store"}), PassOn(False))
        with self.assertRaises(HeaderError):
            Cache(shared=True, responses=-1)
        for targets in (["no name"], [""], ["a\nb"]):
            with self.assertRaises(HeaderError):
                Cache(shared=True, targets=targets)

    def test_is_closed_once(self) -> None:
        with filled() as cache:
            asking = cache.begin("GET", B, {})
        cache.close()
        with self.assertRaisesRegex(ValueError, "closed"):
            cache.begin("GET", A, {})
        with self.assertRaisesRegex(ValueError, "closed"):
            asking.came(200, {})

    def test_is_used_by_several_threads(self) -> None:
        cache, wrong = Cache(shared=True, responses=8), []

        def work(number: int) -> None:
            target, content = f"http://a.example/{number % 4}", b"%d" % (number % 4)
            for _ in range(200):
                asking: Pass = cache.begin("GET", target, {"Cache-Control": "no-cache"}, now=1000)
                if asking.came(200, FRESH, now=1000) == PassOn(True):
                    ended(asking, content)
                if got(cache, target) not in (None, content):
                    wrong.append(target)

        threads = [threading.Thread(target=work, args=(number,)) for number in range(8)]
        for thread in threads:
            thread.start()
        for thread in threads:
            thread.join()
        self.assertEqual(wrong, [])

    def test_holds_no_other_while_content_is_read(self) -> None:
        cache, read = filled(), _library.calls.pass_content
        others: List[object] = []

        def change() -> None:
            others.append(cache.begin("GET", B, {}, now=1000).step)
            cache.remove(A)
            others.append(store(cache, b"other"))

        def read_late(*arguments: Any) -> Any:
            # All that another thread does is done before a byte is read.
            other = threading.Thread(target=change, daemon=True)
            other.start()
            other.join(60)
            return read(*arguments)

        with mock.patch.object(_library.calls, "pass_content", read_late):
            self.assertEqual(got(cache), b"hello")
        self.assertEqual(others, [Ask(), True])
        self.assertEqual(got(cache), b"other")


if __name__ == "__main__":
    unittest.main()
