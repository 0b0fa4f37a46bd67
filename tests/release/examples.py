"""Runs the examples for a release in a bare Debian, where root may change its root folder.

    examples.py FOLDER

They are in the pages of PAGES: the blocks after `release: ` (tools/check_docs says how
a block is marked). A `file: NAME` is written, a `run` is run, and an `output` is what the command before it has to
print. The command that installs the Debian packages, which are where it looks for them, is run first.
"""
import subprocess
import sys
from importlib.machinery import SourceFileLoader
from pathlib import Path

TOP = Path(__file__).resolve().parents[2]
PAGES = ("README.md", "bindings/python/INSPECT.md", "bindings/c/README.md")
ENVIRONMENT = {
    "PATH": "/usr/local/sbin:/usr/local/bin:/usr/sbin:/usr/bin:/sbin:/bin",
    "HOME": "/root",
    "LC_ALL": "C.UTF-8",
    "DEBIAN_FRONTEND": "noninteractive",
}


def main(bare: str) -> int:
    sys.dont_write_bytecode = True
    check_docs = SourceFileLoader("check_docs", str(TOP / "tools/check_docs")).load_module()
    count, printed = 0, ""
    blocks = [(page, block) for page in PAGES for block in check_docs.split(page)[1] if block.is_for_release]
    blocks.sort(key=lambda it: it[1].kind != "run" or not any("*.deb" in line for line in it[1].lines))
    for page, block in blocks:
        text = "\n".join(block.lines) + "\n"
        if block.kind == "file":
            Path(bare, "example", block.word).write_text(text, "utf-8")
        elif block.kind == "run":
            where = "/dist" if "*.deb" in text else "/example"
            words = ["chroot", bare, "bash", "-ec", f"cd {where}\n{text}"]
            done = subprocess.run(words, env=ENVIRONMENT, stdout=subprocess.PIPE, stderr=subprocess.STDOUT, text=True)
            count, printed = count + 1, done.stdout
            if done.returncode:
                print(f"{text}ended with status {done.returncode}, and printed\n{printed}")
                return 1
        elif printed != text:
            print(f"line {block.number} of {page} wants\n{text}and this was printed:\n{printed}")
            return 1
    print(f"{count} commands")
    return 0 if count >= 4 else 1


if __name__ == "__main__":
    sys.exit(main(*sys.argv[1:]))
