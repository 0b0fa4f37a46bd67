"""Makes a site with a file of each kind that pages use. It needs ffmpeg, and Debian's fonts-dejavu-core."""
import gzip
import os
import random
import shutil
import subprocess
import sys
from pathlib import Path

HERE = Path(__file__).resolve().parent
FONT = "/usr/share/fonts/truetype/dejavu/DejaVuSans.ttf"
WRITTEN = 1_700_000_000
# A module whose function `answer` gives 42.
WASM = bytes.fromhex("0061736d01000000 01050160 00017f 03020100 070a0106616e737765720000 0a0601040041 2a0b")
STYLE = """@import 'more.css';
@font-face { font-family: of-ttf; src: url(font.ttf); }
@font-face { font-family: of-woff; src: url(font.woff); }
@font-face { font-family: of-woff2; src: url(font.woff2); }
h1 { color: rgb(0, 80, 160); }
h1::after { content: 'ä'; }
"""
TEXTS = {
    "style.css": STYLE,
    "more.css": ".imported { font-size: 21px; }",
    "part.js": "export const part = 'part ä';",
    "later.js": "export const later = 'later';",
    "tool.mjs": "export const tool = 'mjs';",
    "classic.js": "window.classic = 'classic ä';",
    "worker.js": "import {part} from './part.js'; postMessage('worker of ' + part);",
    "service.js": "self.addEventListener('install', () => self.skipWaiting());",
    "data.json": '{"key": "wert ä"}',
    "app.webmanifest": '{"name": "A page", "start_url": "/"}',
    "a.svg": '<svg xmlns="http://www.w3.org/2000/svg" width="40" height="40"><circle cx="20" cy="20" r="9"/></svg>',
    "a.vtt": "WEBVTT\n\n00:00.000 --> 00:05.000\nwords\n",
    "a.xhtml": '<html xmlns="http://www.w3.org/1999/xhtml"><head><title/></head><body><p>xhtml</p></body></html>',
    "folder/index.html": "<!doctype html><meta charset=utf-8><p>in the folder ä",
    "odd names/ä +%.txt": "odd ä",
}
PICTURE = ["-f", "lavfi", "-i", "testsrc2=s=64x48:d=1", "-frames:v", "1"]
SOUND = ["-f", "lavfi", "-i", "sine=d=8"]
# (a constant rate, so that it is as long as it is said to be)
RATE = ["-c:v", "libx264", "-preset", "ultrafast", "-pix_fmt", "yuv420p", "-b:v", "12M", "-minrate", "12M", "-maxrate",
        "12M", "-bufsize", "12M", "-x264-params", "nal-hrd=cbr"]


def ffmpeg(*words):
    subprocess.run(["ffmpeg", "-v", "error", "-y", *map(str, words)], check=True, stdin=subprocess.DEVNULL)


def make(folder):
    for name in ("index.html", "checks.js"):
        shutil.copyfile(HERE / name, folder / name)
    for name, text in TEXTS.items():
        (folder / name).parent.mkdir(exist_ok=True)
        (folder / name).write_text(text, "utf-8")
    (folder / "a.wasm").write_bytes(WASM)
    (folder / "large.bin").write_bytes(random.Random(17).randbytes(17 << 20))
    # (browsers tell what a font is by its bytes)
    for kind in ("ttf", "woff", "woff2"):
        shutil.copyfile(FONT, folder / f"font.{kind}")
    for kind in ("png", "jpg", "gif", "webp", "bmp"):
        ffmpeg(*PICTURE, folder / f"a.{kind}")
    ffmpeg(*PICTURE, "-c:v", "libaom-av1", "-still-picture", "1", "-cpu-used", "8", folder / "a.avif")
    shutil.copyfile(folder / "a.png", folder / "icon.ico")
    shutil.copyfile(folder / "a.png", folder / "odd names/ä b.PNG")
    ffmpeg("-f", "lavfi", "-i", "testsrc2=s=160x90:d=4", "-c:v", "libvpx", "-deadline", "realtime", folder / "a.webm")
    for kind, words in (("wav", []), ("ogg", ["-c:a", "libvorbis"]), ("mp3", [])):
        ffmpeg(*SOUND, *words, folder / f"a.{kind}")
    # The index of a video is at its end, so that a player has to seek before it plays.
    ffmpeg("-f", "lavfi", "-i", "testsrc2=s=640x360:d=6", *RATE, folder / "a.mp4")
    ffmpeg("-stream_loop", "22", "-i", folder / "a.mp4", "-c", "copy", folder / "huge.mp4")
    for name in ("style.css", "checks.js", "data.json", "index.html"):
        (folder / f"{name}.gz").write_bytes(gzip.compress((folder / name).read_bytes(), mtime=0))
    # What is older than two seconds has a strong tag.
    for path in folder.rglob("*"):
        os.utime(path, (WRITTEN, WRITTEN))


if __name__ == "__main__":
    make(Path(sys.argv[1]))
