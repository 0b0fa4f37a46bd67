"""Holds the wheel and the source distribution of a release to the rules of Python's packaging.

    archives.py FOLDER

What an index rejects, and what `twine check` of Debian 12 doesn't see: fields that are later than the version of the
metadata, a file name or a digest that isn't that of the content, and a tag for systems on which the extension can't be
loaded (PEP 600).
"""
import base64
import csv
import hashlib
import re
import subprocess
import sys
import tarfile
import tempfile
import zipfile
from email import message_from_bytes
from email.message import Message
from pathlib import Path
from typing import Dict, List

TOP = Path(__file__).resolve().parents[2]
VERSION = (TOP / "VERSION").read_text("ascii").strip()
REQUIRED = (
    "Metadata-Version", "Name", "Version", "Summary", "License", "Keywords", "Classifier", "Requires-Python",
    "Description-Content-Type",
)
#: The fields that are later than the first version of the metadata, and the version that added them.
ADDED = {
    "Classifier": "1.1", "Requires-Python": "1.2", "Project-URL": "1.2", "Provides-Extra": "2.1",
    "Description-Content-Type": "2.1", "Dynamic": "2.2", "License-Expression": "2.4", "License-File": "2.4",
}
#: The libraries of the system that an extension with a manylinux tag may ask for (PEP 600), which a C program needs.
LIBRARIES = {"libc.so.6", "libpthread.so.0", "libm.so.6", "libdl.so.2", "ld-linux-x86-64.so.2"}


def parts(version: str) -> List[int]:
    return list(map(int, version.split(".")))


def run(*words: object) -> str:
    return subprocess.run(list(map(str, words)), check=True, stdout=subprocess.PIPE, text=True).stdout


def faults_of_metadata(metadata: Message, licence: bytes) -> List[str]:
    version = metadata["Metadata-Version"]
    readme = (TOP / "bindings/python/README.md").read_text("utf-8")
    found = [f"there is no {name}" for name in REQUIRED if not metadata[name]]
    found += [
        f"{name} is later than version {version} of the metadata"
        for name, added in ADDED.items() if name in metadata and parts(added) > parts(version)
    ]
    if metadata["Version"] != VERSION:
        found.append(f"the version is {metadata['Version']}")
    if metadata.get_payload(decode=True).decode("utf-8") != readme:
        found.append("the description isn't the README")
    if re.search(r"\]\((?!https?:)", readme):
        found.append("the description has a link that leads nowhere on an index")
    if licence != (TOP / "LICENSE").read_bytes():
        found.append("the licence isn't that of the repository")
    return found


def faults_of_extension(content: bytes, platforms: List[str]) -> List[str]:
    with tempfile.NamedTemporaryFile(suffix=".so") as file:
        file.write(content)
        file.flush()
        needed = set(re.findall(r"NEEDED\s+(\S+)", run("objdump", "-p", file.name)))
        symbols = run("nm", "-D", "--with-symbol-versions", file.name)
    found = [f"it asks for {name}" for name in sorted(needed - LIBRARIES)]
    wanted = {int(it) for it in re.findall(r"@GLIBC_2\.(\d+)", symbols)}
    oldest = min(17 if it.startswith("manylinux2014_") else int(it.split("_")[2]) for it in platforms)
    if any(it > oldest for it in wanted) or re.search(r" U \w+@(?!GLIBC_2\.\d)", symbols):
        found.append(f"it asks for later libraries than {', '.join(platforms)} have")
    return found


def faults_of_wheel(path: Path) -> List[str]:
    files: Dict[str, bytes] = {}
    with zipfile.ZipFile(path) as archive:
        files = {name: archive.read(name) for name in archive.namelist()}
    project, version, *tag, last = path.stem.split("-")
    info = f"{project}-{version}.dist-info"
    licence = files.get(f"{info}/licenses/LICENSE", b"")
    found = faults_of_metadata(message_from_bytes(files[f"{info}/METADATA"]), licence)
    told = message_from_bytes(files[f"{info}/WHEEL"])
    platforms = last.split(".")
    python = "-".join(tag)
    if sorted(told.get_all("Tag")) != sorted(f"{python}-{it}" for it in platforms):
        found.append("the file name has other tags than the file WHEEL")
    if told["Root-Is-Purelib"] != "false":
        found.append("Root-Is-Purelib is wrong")
    recorded = {row[0]: row[1:] for row in csv.reader(files[f"{info}/RECORD"].decode("utf-8").splitlines())}
    for name, content in files.items():
        digest = base64.urlsafe_b64encode(hashlib.sha256(content).digest()).rstrip(b"=").decode("ascii")
        if name != f"{info}/RECORD" and recorded.pop(name, None) != [f"sha256={digest}", str(len(content))]:
            found.append(f"RECORD has another digest or length of {name}")
    if list(recorded) != [f"{info}/RECORD"]:
        found.append("RECORD has other files than the wheel")
    found += [f"there is no {it}" for it in ("py.typed", "_native.pyi") if f"typed_headers/{it}" not in files]
    extensions = [name for name in files if name.endswith(".so")]
    if len(extensions) != 1:
        found.append(f"its extensions are {extensions}")
    for name in extensions:
        found += faults_of_extension(files[name], platforms)
    return found


def faults_of_source(path: Path) -> List[str]:
    with tarfile.open(path) as archive:
        opened = {it.name: archive.extractfile(it) for it in archive.getmembers()}
        files = {name: file.read() for name, file in opened.items() if file}
    top = path.name[: -len(".tar.gz")]
    if any(not name.startswith(f"{top}/") for name in files):
        return [f"not all files are in {top}"]
    found = faults_of_metadata(message_from_bytes(files[f"{top}/PKG-INFO"]), files.get(f"{top}/LICENSE", b""))
    return found + [
        f"there is no {name}"
        for name in ("pyproject.toml", "backend.py", "README.md", "native.c", "calls.h", "typed_headers/_native.pyi")
        if f"{top}/{name}" not in files
    ]


def main(folder: str) -> int:
    wheels = sorted(Path(folder).glob("*.whl"))
    sources = sorted(Path(folder).glob(f"typed_headers-{VERSION}.tar.gz"))
    faults = [f"{it.name}: {fault}" for it in wheels for fault in faults_of_wheel(it)]
    faults += [f"{it.name}: {fault}" for it in sources for fault in faults_of_source(it)]
    if (len(wheels), len(sources)) != (1, 1):
        faults.append(f"there are {len(wheels)} wheels and {len(sources)} source distributions")
    print(*faults, sep="\n")
    return 1 if faults else 0


if __name__ == "__main__":
    sys.exit(main(*sys.argv[1:]))
