"""What a part of the comparison has to show."""
from dataclasses import dataclass, field
from pathlib import Path


@dataclass
class Part:
    """A part's line, the section that it has in docs/measured/BESIDE_PEERS.md, and what was wrong or missing."""

    title: str
    section: list[str] = field(default_factory=list)
    counts: list[str] = field(default_factory=list)
    faults: list[str] = field(default_factory=list)
    missing: list[str] = field(default_factory=list)

    def want(self, what: str, found: object, wanted: object) -> None:
        """Counts something that has to be as it is wanted."""
        self.counts.append(f"{what}: {found}")
        if found != wanted:
            self.faults.append(f"{what}: {found}, wanted {wanted}")

    def table(self, head: list[str], rows: list[list[object]]) -> None:
        lines: list[list[object]] = [[*head], ["---"] * len(head), *rows]
        self.section += ["".join(f"| {cell} " for cell in map(shown, line)) + "|" for line in lines] + [""]


def shown(cell: object) -> str:
    """A cell of a table. A bar would end it."""
    return str(cell).replace("|", "\\|").replace("\n", " ")


def code(text: object) -> str:
    """A text in a table as it stands."""
    marks = "``" if "`" in str(text) else "`"
    return f"{marks}{text}{marks}" if str(text).strip() else "an empty text"


@dataclass
class Context:
    """Where a part works, what it is to ask, in how many processes (`None`: as many as there are processors), and how
    many histories are of passes."""

    work: Path
    inputs: int
    seed: int
    jobs: int | None = None
    passes: int = 1000
