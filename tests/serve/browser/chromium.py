"""A Chromium without a window, and its page, over the pipe of its debugging protocol."""
import fcntl
import json
import os
import select
import shutil
import signal
import subprocess
import tempfile
import time

WORDS = [
    "--headless=new", "--no-sandbox", "--disable-gpu", "--no-first-run", "--disable-background-networking",
    "--disable-component-update", "--disable-sync", "--disable-default-apps", "--disable-dev-shm-usage", "--mute-audio",
    "--autoplay-policy=no-user-gesture-required", "--remote-debugging-pipe",
]


class Failed(Exception):
    """A command of the protocol, or a script of the page, ended with an error."""


class Page:
    """A page of a browser with a fresh profile, until the block ends."""

    def __enter__(self):
        self.profile = tempfile.mkdtemp(prefix="chromium-")
        commands, self.write = os.pipe()
        self.read, answers = os.pipe()
        # (the browser reads commands from its descriptor 3, and writes to 4)
        given = [fcntl.fcntl(it, fcntl.F_DUPFD, 10) for it in (commands, answers)]
        script = 'exec chromium "$@" 3<&{0} 4>&{1} {0}<&- {1}>&-'.format(*given)
        self.process = subprocess.Popen(
            ["bash", "-c", script, "bash", *WORDS, f"--user-data-dir={self.profile}", "about:blank"],
            pass_fds=given, stdin=subprocess.DEVNULL, stdout=subprocess.DEVNULL, stderr=subprocess.DEVNULL,
            env={**os.environ, "HOME": self.profile}, start_new_session=True)
        for it in (commands, answers, *given):
            os.close(it)
        self.count, self.bytes, self.events, self.session = 0, b"", [], None
        pages = self.send("Target.getTargets")["targetInfos"]
        page = next(it for it in pages if it["type"] == "page")
        self.session = self.send("Target.attachToTarget", targetId=page["targetId"], flatten=True)["sessionId"]
        for name in ("Network", "Page", "Runtime"):
            self.send(f"{name}.enable")
        return self

    def __exit__(self, *_):
        for signal_ in (signal.SIGTERM, signal.SIGKILL):
            try:
                os.killpg(self.process.pid, signal_)
                self.process.wait(10)
            except (ProcessLookupError, subprocess.TimeoutExpired):
                pass
        os.close(self.read)
        os.close(self.write)
        shutil.rmtree(self.profile, ignore_errors=True)

    def message(self, until):
        """The next message, if one comes before a time."""
        while b"\0" not in self.bytes:
            left = until - time.monotonic()
            if left <= 0 or not select.select([self.read], [], [], left)[0]:
                raise TimeoutError("the browser doesn't answer")
            more = os.read(self.read, 1 << 16)
            if not more:
                raise Failed("the browser ended")
            self.bytes += more
        text, _, self.bytes = self.bytes.partition(b"\0")
        return json.loads(text)

    def send(self, method, seconds=120, **parameters):
        """Sends a command and returns its result. The events that come meanwhile are kept."""
        self.count += 1
        command = {"id": self.count, "method": method, "params": parameters}
        if self.session:
            command["sessionId"] = self.session
        os.write(self.write, json.dumps(command).encode() + b"\0")
        until = time.monotonic() + seconds
        while True:
            message = self.message(until)
            if message.get("id") == self.count:
                if "error" in message:
                    raise Failed(f"{method}: {message['error']['message']}")
                return message["result"]
            self.events.append(message)

    def wait(self, name, seconds=120):
        """Waits for an event that hasn't been taken yet."""
        until = time.monotonic() + seconds
        while not any(event.get("method") == name for event in self.events):
            self.events.append(self.message(until))

    def take(self):
        """The events since the last call."""
        events, self.events = self.events, []
        return [(it["method"], it["params"]) for it in events if "method" in it]

    def go(self, url=None):
        """Goes to a page, or loads this one again, until it is loaded."""
        self.send("Page.navigate", url=url) if url else self.send("Page.reload")
        self.wait("Page.loadEventFired")

    def run(self, script):
        """The value of an expression, or of its promise."""
        result = self.send("Runtime.evaluate", expression=script, awaitPromise=True, returnByValue=True,
                           userGesture=True)
        if "exceptionDetails" in result:
            raise Failed(result["exceptionDetails"].get("exception", {}).get("description", "an exception"))
        return result["result"].get("value")
