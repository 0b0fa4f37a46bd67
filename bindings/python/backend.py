"""Builds the wheel and the source distribution, as pip asks for them. It needs no other package and no network.

The wheel has the extension of the package's folder. If there is none, it is compiled: with the library in the folder
that the environment variable TYPED_HEADERS names, else with the one that pkg-config finds. A tag says which systems it
runs on. The same files give the same bytes: the times in both archives are SOURCE_DATE_EPOCH, or 1980.

    backend.py HEADER LIBRARY TO

compiles the extension, with this folder of typed_headers.h and this library, to a file.
"""

import base64
import gzip
import hashlib
import io
import os
import re
import shlex
import shutil
import subprocess
import sys
import sysconfig
import tarfile
import tempfile
import time
import zipfile
from pathlib import Path
from typing import Any, Dict, List, Optional, Tuple

HERE = Path(__file__).resolve().parent
PACKAGE = HERE / "typed_headers"
EXTENSION = "_native.abi3.so"
HEADER = "typed_headers.h"
#: The files of the source distribution beside the package and the tests.
SOURCES = ("README.md", "backend.py", "calls.h", "native.c", "pyproject.toml")
EPOCH_OF_ZIP = 315532800
HELP = (
    "The package's extension in C is compiled. That needs a C compiler, Python.h (on Debian: python3-dev), and the "
    "library's files for development: libtyped-headers-dev, or a folder with them in TYPED_HEADERS. A wheel of the "
    "release needs none of them."
)

METADATA = """\
Metadata-Version: 2.1
Name: typed-headers
Version: {version}
Summary: Typed HTTP headers, by a library whose calls are proved to follow their specifications
License: MIT
Keywords: http,headers,caching,cors,range requests
Classifier: Development Status :: 5 - Production/Stable
Classifier: Intended Audience :: Developers
Classifier: License :: OSI Approved :: MIT License
Classifier: Operating System :: POSIX :: Linux
Classifier: Programming Language :: Python :: 3
Classifier: Topic :: Internet :: WWW/HTTP
Classifier: Typing :: Typed
Requires-Python: >=3.8
Description-Content-Type: text/markdown

{readme}"""
WHEEL = """\
Wheel-Version: 1.0
Generator: typed-headers
Root-Is-Purelib: false
{tags}"""
ENTRY_POINTS = """\
[console_scripts]
typed-headers = typed_headers.__main__:run
"""


def version() -> str:
    text = (PACKAGE / "_version.py").read_text("utf-8")
    found = re.search(r'^VERSION = "([\d.]+)"$', text, re.M)
    assert found, "_version.py says the version"
    return found[1]


def license_text() -> bytes:
    """The licence: beside this file in a source distribution, at the top in the repository."""
    beside = HERE / "LICENSE"
    return (beside if beside.exists() else HERE.parent.parent / "LICENSE").read_bytes()


def metadata() -> bytes:
    return METADATA.format(version=version(), readme=(HERE / "README.md").read_text("utf-8")).encode()


def tags_of(library: Path) -> List[str]:
    """The platforms that the library runs on: by its machine, and the newest version of glibc that it asks for."""
    code = library.read_bytes()
    machines = {62: "x86_64", 183: "aarch64"}
    machine = machines.get(int.from_bytes(code[18:20], "little"))
    asked = max((int(it) for it in re.findall(rb"GLIBC_2\.(\d+)", code)), default=0)
    if machine is None:
        return [f"linux_{os.uname().machine}"]
    if asked <= 17:
        return [f"manylinux_2_17_{machine}", f"manylinux2014_{machine}"]
    return [f"manylinux_2_{asked}_{machine}"]


def epoch() -> int:
    return max(int(os.environ.get("SOURCE_DATE_EPOCH", EPOCH_OF_ZIP)), EPOCH_OF_ZIP)


def digest_of(content: bytes) -> str:
    return base64.urlsafe_b64encode(hashlib.sha256(content).digest()).rstrip(b"=").decode("ascii")


def modules() -> Dict[str, bytes]:
    """The package's own files, by their place in an archive."""
    names = sorted(it for it in PACKAGE.iterdir() if it.suffix in (".py", ".pyi") or it.name == "py.typed")
    return {f"typed_headers/{it.name}": it.read_bytes() for it in names}


def build_wheel(
    wheel_directory: str, config_settings: Optional[Dict[str, Any]] = None, metadata_directory: Optional[str] = None
) -> str:
    """Writes the wheel, and returns its name."""
    files = modules()
    made = PACKAGE / EXTENSION
    if made.exists():
        files[f"typed_headers/{EXTENSION}"], tags = made.read_bytes(), tags_of(made)
    else:
        files[f"typed_headers/{EXTENSION}"], tags = compiled()
    python = "cp38-abi3"
    info = f"typed_headers-{version()}.dist-info"
    lines = "".join(f"Tag: {python}-{tag}\n" for tag in tags)
    files[f"{info}/METADATA"] = metadata()
    files[f"{info}/WHEEL"] = WHEEL.format(tags=lines).encode()
    files[f"{info}/entry_points.txt"] = ENTRY_POINTS.encode()
    files[f"{info}/licenses/LICENSE"] = license_text()
    proved = PACKAGE / "PROVED.txt"
    if proved.exists():
        files[f"{info}/PROVED.txt"] = proved.read_bytes()
    record = "".join(f"{name},sha256={digest_of(content)},{len(content)}\n" for name, content in files.items())
    files[f"{info}/RECORD"] = f"{record}{info}/RECORD,,\n".encode()
    name = f"typed_headers-{version()}-{python}-{'.'.join(tags)}.whl"
    with zipfile.ZipFile(Path(wheel_directory, name), "w") as archive:
        for place, content in files.items():
            entry = zipfile.ZipInfo(place, time.gmtime(epoch())[:6])
            entry.compress_type = zipfile.ZIP_DEFLATED
            mode = 0o755 if place.endswith(EXTENSION) else 0o644
            entry.external_attr = (0o100000 | mode) << 16
            archive.writestr(entry, content)
    return name


def build_sdist(sdist_directory: str, config_settings: Optional[Dict[str, Any]] = None) -> str:
    """Writes the source distribution, and returns its name."""
    top = f"typed_headers-{version()}"
    files = {name: (HERE / name).read_bytes() for name in SOURCES}
    files.update(modules())
    files.update({f"tests/{it.name}": it.read_bytes() for it in sorted((HERE / "tests").glob("*.py"))})
    files["LICENSE"] = license_text()
    files["PKG-INFO"] = metadata()
    text = io.BytesIO()
    with tarfile.open(fileobj=text, mode="w", format=tarfile.PAX_FORMAT) as archive:
        for place, content in sorted(files.items()):
            entry = tarfile.TarInfo(f"{top}/{place}")
            entry.size, entry.mtime, entry.mode = len(content), epoch(), 0o644
            archive.addfile(entry, io.BytesIO(content))
    path = Path(sdist_directory, f"{top}.tar.gz")
    with open(path, "wb") as file, gzip.GzipFile("", "wb", 9, file, epoch()) as archive:
        archive.write(text.getvalue())
    return path.name


def compiled() -> Tuple[bytes, List[str]]:
    """The extension, compiled with a library of this system, and the platforms that it runs on."""
    folder = os.environ.get("TYPED_HEADERS")
    with tempfile.TemporaryDirectory() as work:
        made = Path(work, EXTENSION)
        if folder:
            headers = [it for it in (Path(folder), Path(folder).parent / "include") if (it / HEADER).exists()]
            library = Path(folder, "libtyped_headers.a")
            if not headers or not library.exists():
                raise SystemExit(f"backend: TYPED_HEADERS is {folder}, which isn't a folder of the library. {HELP}")
            build_extension(headers[0], library, made)
            return made.read_bytes(), tags_of(made)
        words = ["pkg-config", "--cflags", "--libs", f"typed_headers >= {version().rpartition('.')[0]}"]
        found = subprocess.run(words, stdout=subprocess.PIPE, text=True) if shutil.which(words[0]) else None
        if found is None or found.returncode:
            raise SystemExit(f"backend: there is no installed {words[-1]} that pkg-config knows. {HELP}")
        compile_extension(made, shlex.split(found.stdout))
        return made.read_bytes(), [f"linux_{os.uname().machine}"]


def compile_extension(to: Path, words: List[str]) -> None:
    """Compiles the extension, with what names the library and its header to the compiler."""
    include = sysconfig.get_path("include")
    if not Path(include, "Python.h").exists():
        raise SystemExit(f"backend: there is no Python.h in {include}. {HELP}")
    if not shutil.which("cc"):
        raise SystemExit(f"backend: there is no C compiler. {HELP}")
    options = ["-std=c11", "-O2", "-fPIC", "-shared", "-Wall", "-Wextra", "-Wl,-z,relro,-z,now"]
    sources = [str(HERE / "native.c"), *words, "-Wl,--no-as-needed", "-lc"]
    subprocess.run(["cc", *options, f"-I{include}", "-o", str(to), *sources], check=True)


def build_extension(header: Path, library: Path, to: Path) -> None:
    """Compiles the extension, with the folder of typed_headers.h and the library, static or shared."""
    compile_extension(to, [f"-I{header}", str(library)])


if __name__ == "__main__":
    # (another compiler may warn of more, and an installation goes on)
    compile_extension(Path(sys.argv[3]), ["-Werror", f"-I{sys.argv[1]}", sys.argv[2]])
