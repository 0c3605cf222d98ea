"""The layers of the crates as a picture: what each stands on directly, drawn from crates.txt."""

import functools
import pathlib
import re
import sys

from tools.repository import TOP, Repository
from tools.statuses import USAGE

TESTS = ("pq_test", "pq_cases", "piql_examples")
BLOCK = re.compile(r"(?<=^```mermaid\n).*?(?=^```$)", re.MULTILINE | re.DOTALL)


class Layers:
    """The crates of the programs, by how many stand below one another."""

    def __init__(self, repository: Repository) -> None:
        self.repository = repository
        self.crates = [name for name in repository.uses if not name.startswith(TESTS)]

    def direct(self, crate: str) -> list[str]:
        """The crates that a crate stands on, without those that others of them stand on."""
        uses = self.repository.own_uses(crate)
        return [name for name in uses if not any(name in self.repository.below(other) for other in uses)]

    @functools.cache
    def level(self, crate: str) -> int:
        """How many crates stand below one another under it."""
        return max((self.level(name) + 1 for name in self.repository.own_uses(crate)), default=0)

    def ordered(self) -> list[str]:
        """The crates from the lowest level up, each level in the order of their names."""
        return sorted(self.crates, key=lambda crate: (self.level(crate), crate))

    def picture(self) -> str:
        """A flowchart of Mermaid: an arrow from each crate to those that it stands on."""
        lines = ["flowchart TD"]
        for crate in reversed(self.ordered()):
            below = self.direct(crate)
            lines.append(f"  {crate} --> {' & '.join(sorted(below))}" if below else f"  {crate}")
        return "\n".join(lines) + "\n"


def write_picture(repository: Repository, document: pathlib.Path) -> None:
    """Puts the picture into the document in place of the one that it has."""
    picture = Layers(repository).picture()
    document.write_text(BLOCK.sub(lambda _: picture, document.read_text(), count=1))


def main(words: list[str]) -> int:
    if words == ["--write"]:
        write_picture(Repository(), TOP / "docs/ARCHITECTURE.md")
        return 0
    if words:
        print("layers: it takes no word but --write", file=sys.stderr)
        return USAGE
    print(Layers(Repository()).picture(), end="")
    return 0
