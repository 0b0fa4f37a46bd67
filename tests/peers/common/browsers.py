"""Headless browsers with a fresh profile."""
import subprocess
import tempfile
from pathlib import Path
from types import TracebackType

from common.processes import Missing, end, environment, has, output

COMMANDS = {"chromium": "chromium", "firefox": "firefox-esr"}
CHROMIUM_WORDS = [
    "--headless=new", "--no-sandbox", "--disable-gpu", "--no-first-run", "--disable-background-networking",
    "--disable-component-update", "--disable-sync", "--disable-default-apps", "--disable-dev-shm-usage", "--mute-audio",
    "--autoplay-policy=no-user-gesture-required",
]
FIREFOX_PREFERENCES = """
user_pref("browser.shell.checkDefaultBrowser", false);
user_pref("browser.startup.homepage_override.mstone", "ignore");
user_pref("datareporting.policy.dataSubmissionEnabled", false);
user_pref("toolkit.telemetry.enabled", false);
user_pref("app.update.enabled", false);
user_pref("network.captive-portal-service.enabled", false);
user_pref("network.connectivity-service.enabled", false);
user_pref("network.websocket.delay-failed-reconnects", false);
user_pref("browser.safebrowsing.malware.enabled", false);
user_pref("browser.safebrowsing.phishing.enabled", false);
user_pref("network.http.max-persistent-connections-per-server", 16);
user_pref("security.fileuri.strict_origin_policy", true);
user_pref("media.autoplay.default", 0);
user_pref("media.autoplay.blocking_policy", 0);
"""


class Browser:
    """A browser with a page, until the block ends. Raises `Missing` if it isn't here."""

    def __init__(self, name: str, url: str) -> None:
        self.name, self.url = name, url
        if not has(COMMANDS[name]):
            raise Missing(f"there is no {COMMANDS[name]}")

    def __enter__(self) -> "Browser":
        self.folder = tempfile.TemporaryDirectory(prefix="peers-", ignore_cleanup_errors=True)
        profile = Path(self.folder.name)
        if self.name == "chromium":
            words = [*CHROMIUM_WORDS, f"--user-data-dir={profile}"]
        else:
            (profile / "user.js").write_text(FIREFOX_PREFERENCES)
            words = ["--headless", "--no-remote", "--profile", str(profile)]
        self.process = subprocess.Popen(
            ["nice", "-n", "10", COMMANDS[self.name], *words, self.url], stdin=subprocess.DEVNULL,
            stdout=subprocess.DEVNULL, stderr=subprocess.DEVNULL, env=environment({"HOME": str(profile)}),
            start_new_session=True)
        return self

    def __exit__(self, *_: type[BaseException] | BaseException | TracebackType | None) -> None:
        end(self.process)
        self.folder.cleanup()


def version(name: str) -> str:
    """What the browser says of itself, as `Chromium 156.0`."""
    words = output([COMMANDS[name], "--version"], timeout=60).decode().split()
    number = next(it for it in words if it[0].isdigit())
    return f"{name.title()} {number.split('.')[0]}"
