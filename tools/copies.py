"""Copies of the repository's crates, which commands of rt change without the repository."""
import shutil
from pathlib import Path

TOP = Path(__file__).resolve().parent.parent


def copy_crates(folder):
    """Copies the crates to a folder, without what was built, without mutants and without test cases. rt takes the
    libraries that another copy has proved."""
    shutil.copytree(TOP / "crates", folder / "crates", ignore=shutil.ignore_patterns("out", "must-fail", "data"))
    for file in ("crates.txt", "HANDLES"):
        shutil.copyfile(TOP / file, folder / file)
    (folder / ".git").mkdir()
