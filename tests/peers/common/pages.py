"""Pages with a section for each part."""
import itertools
import re
from pathlib import Path

from common.part import Part


def paragraphs(lines: list[str]) -> list[str]:
    """The lines of a section, with each paragraph on one line."""
    found = []
    for is_text, group in itertools.groupby(lines, lambda it: bool(it) and not it.startswith("|")):
        found += [" ".join(group)] if is_text else list(group)
    return found


def sections_of(text: str) -> dict[str, str]:
    """The sections of a page by their titles."""
    parts = re.split(r"^## (.*)\n", text, flags=re.MULTILINE)
    return dict(zip(parts[1::2], (it.strip() for it in parts[2::2])))


def write(path: Path, title: str, introduction: str, parts: list[Part]) -> None:
    """Writes the page of some parts. A section whose part isn't among them, or lacks something, stays as it is."""
    sections = sections_of(path.read_text("utf-8")) if path.exists() else {}
    for part in parts:
        if part.section and not part.missing:
            sections[part.title] = "\n".join(paragraphs(part.section)).strip()
    head = "\n".join(paragraphs(introduction.strip().split("\n")))
    text = "\n\n".join([title, head, *(f"## {name}\n\n{body}" for name, body in sections.items())])
    path.write_text(text + "\n", "utf-8")
