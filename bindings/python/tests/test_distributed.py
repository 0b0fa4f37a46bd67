"""`map_partition` in two workers of Dask, and the functions of README.md for Dask and Spark."""

import logging
import pickle
import re
import tempfile
import unittest
from pathlib import Path
from typing import Any, Callable, Dict, Iterable, List

from typed_headers.audit import Exchange, findings, map_partition

try:
    import cloudpickle
    from dask.bag.core import from_sequence
    from distributed import Client, LocalCluster, get_worker
except ImportError as error:
    raise unittest.SkipTest(f"distributed isn't installed: {error}") from None

HEADS = [
    b"HTTP/1.1 200 OK\r\nCache-Control: max-age=60\r\nSet-Cookie: a=%d\r\n" % number
    if number % 3
    else b'HTTP/1.1 200 OK\r\nCache-Control: private\r\nETag: "%d"\r\nAge: x\r\n' % number
    for number in range(200)
]
NOW = 784111777
EXCHANGES = [Exchange(f"https://a.example/{number}", head, received=NOW) for number, head in enumerate(HEADS)]


def by_worker(exchanges: Iterable[Exchange]) -> List[Dict[str, Any]]:
    """What `map_partition` finds, and which worker asked it."""
    worker = get_worker().address
    return [{**found, "worker": worker} for found in map_partition(exchanges)]


class Context:
    """What a context of Spark does, in one process: functions are pickled, and get an iterator of a partition."""

    def __init__(self, names: Iterable[str] = (), function: "Callable[[Any], Iterable[Any]]" = iter) -> None:
        self.names, self.function = list(names), function

    def parallelize(self, names: Iterable[str]) -> "Context":
        return Context(names)

    def mapPartitions(self, function: "Callable[[Any], Iterable[Any]]") -> "Context":
        again = pickle.loads(cloudpickle.dumps(function))
        return Context(self.names, again)

    def collect(self) -> List[Any]:
        half = len(self.names) // 2
        return [found for names in (self.names[:half], self.names[half:]) for found in self.function(iter(names))]


def page() -> Dict[str, Any]:
    """The functions of README.md."""
    readme = Path(__file__).resolve().parent.parent / "README.md"
    if not readme.exists():
        raise unittest.SkipTest("there is no README.md beside the tests")
    block = re.search(r"test_distributed\.py -->\n```python\n(.*?)```", readme.read_text("utf-8"), re.DOTALL)
    assert block is not None
    names: Dict[str, Any] = {"__name__": "page"}
    exec(block[1], names)
    return names


class Workers(unittest.TestCase):
    folder: Path
    client: Any

    @classmethod
    def setUpClass(cls) -> None:
        room = tempfile.TemporaryDirectory()
        cls.addClassCleanup(room.cleanup)
        cls.folder = Path(room.name)
        cluster = LocalCluster(
            n_workers=2,
            threads_per_worker=2,
            host="127.0.0.1",
            dashboard_address=None,
            local_directory=room.name,
            # (a worker that ends tells that its connections do)
            silence_logs=logging.CRITICAL,
        )
        cls.addClassCleanup(cluster.close)
        cls.client = Client(cluster)
        cls.addClassCleanup(cls.client.close)
        cls.client.wait_for_workers(2)

    def files(self) -> List[str]:
        names = []
        for number in range(4):
            path = self.folder / f"{number}.txt"
            path.write_bytes(b"\r\n".join(HEADS[50 * number : 50 * number + 50]))
            names.append(str(path))
        return names

    def test_each_worker_finds_the_same(self) -> None:
        found = self.client.run(map_partition, EXCHANGES)
        self.assertEqual(len(found), 2)
        wanted = [findings(it) for it in EXCHANGES]
        for each in found.values():
            self.assertEqual(each, wanted)

    def test_partitions(self) -> None:
        found = from_sequence(EXCHANGES, npartitions=40).map_partitions(by_worker).compute()
        self.assertEqual(len({it.pop("worker") for it in found}), 2)
        self.assertEqual(found, [findings(it) for it in EXCHANGES])

    def test_files(self) -> None:
        names = self.files()
        wanted = [findings(Exchange("", head))["findings"] for head in HEADS]
        judged = page()["by_dask"](names)
        self.assertEqual(judged.pluck("findings").compute(), wanted)
        counts = dict(judged.pluck("findings").flatten().frequencies().compute())
        self.assertEqual(counts, {"malformed_field": 67, "stored_with_cookie": 133, "no_validator": 133})

    def test_files_by_spark(self) -> None:
        found = page()["by_spark"](Context(), self.files()).collect()
        self.assertEqual([it["findings"] for it in found], [findings(Exchange("", head))["findings"] for head in HEADS])


if __name__ == "__main__":
    unittest.main()
