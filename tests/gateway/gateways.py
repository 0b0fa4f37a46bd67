"""Gateways between a port and the port of an origin."""
import os
from dataclasses import dataclass, field
from pathlib import Path

from common import processes

PEERS = Path(__file__).with_name("peers")


@dataclass
class Gateway:
    """A gateway: the command that starts it at @PORT@ before @ORIGIN@, the one that tells its version, and its
    configuration."""

    name: str
    words: list[str]
    version: list[str] = field(default_factory=list)
    config: str = ""

    def title(self) -> str:
        return processes.titled(self.name, self.version)

    def running(self, port: int, origin: int, work: Path):
        """Runs it until the block ends. Raises `Missing` if it can't be had."""
        names = {"PORT": str(port), "ORIGIN": str(origin), "WORK": str(work)}
        if self.config:
            processes.fill(PEERS / self.config, work / self.config, names)
        words = [processes.filled(word, names) for word in self.words]
        return processes.server(words, port, "/", work / f"{self.name}.log")


# This repository's program.
OURS = Gateway("ours", ["env", "PORT=@PORT@", os.environ["GATE"], "127.0.0.1:@ORIGIN@"])
OTHERS = [
    Gateway("nginx", ["nginx", "-c", "@WORK@/nginx.conf", "-e", "@WORK@/nginx.error"], ["nginx", "-v"], "nginx.conf"),
    Gateway("HAProxy", ["haproxy", "-db", "-f", "@WORK@/haproxy.conf"], ["haproxy", "-v"], "haproxy.conf"),
    Gateway("Apache", ["apache2", "-f", "@WORK@/apache.conf", "-DFOREGROUND"], ["apache2", "-v"], "apache.conf"),
    Gateway("Varnish", ["varnishd", "-F", "-a", "127.0.0.1:@PORT@", "-f", "@WORK@/varnish.vcl", "-n",
                        "@WORK@/varnish", "-s", "malloc,64m", "-j", "none"], ["varnishd", "-V"], "varnish.vcl"),
]
