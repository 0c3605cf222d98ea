"""What is known of the wrong bodies of each crate, and of which revision: the file mutants/RESULTS."""

import dataclasses
import os
import pathlib
import re
from typing import Self

from tools.repository import Repository

HEAD = """\
# Of each crate: wrong bodies that were refused, at which revision, a sum of its sources and of those below, when, by
# which toolchain. A line holds of its revision; bin/mutants --stale lists the crates that have changed since.
"""
LINE = re.compile(r"(\w+): (\d+) of (\d+) refused at (\w+(?: with changes)?), sources ([0-9a-f]+), (\S+), (.+)")


@dataclasses.dataclass(frozen=True)
class Result:
    """What one run over the wrong bodies of a crate found."""

    crate: str
    refused: int
    tried: int
    # The commit that was checked out. What was changed in it and not committed is told.
    revision: str
    sources: str
    when: str
    toolchain: str

    def line(self) -> str:
        count = f"{self.refused} of {self.tried} refused at {self.revision}"
        return f"{self.crate}: {count}, sources {self.sources}, {self.when}, {self.toolchain}"

    @classmethod
    def of_line(cls, line: str) -> Self | None:
        found = LINE.fullmatch(line)
        if found is None:
            return None
        crate, refused, tried, *rest = found.groups()
        return cls(crate, int(refused), int(tried), *rest)


def read(path: pathlib.Path) -> dict[str, Result]:
    """The results that stand, by crate."""
    lines = path.read_text().split("\n") if path.exists() else []
    results = [result for line in lines if (result := Result.of_line(line))]
    return {result.crate: result for result in results}


def keep(path: pathlib.Path, result: Result, crates: list[str]) -> None:
    """Puts a result in the place of the crate's last one. Of the others those of these crates stay, in this order."""
    results = {**read(path), result.crate: result}
    lines = [results[crate].line() + "\n" for crate in crates if crate in results]
    new = path.with_name(path.name + ".tmp")
    new.write_text(HEAD + "".join(lines))
    os.replace(new, path)


def stale(repository: Repository, results: dict[str, Result]) -> list[str]:
    """A line for each crate whose wrong bodies beside the gate have to be tried again."""
    lines = []
    for crate in filter(repository.edits_beside, repository.uses):
        result = results.get(crate)
        if result is None:
            lines.append(f"{crate}: not tried yet")
        elif result.sources != repository.source_sum(crate):
            lines.append(f"{crate}: changed since {result.revision}, {result.when}")
        elif result.refused < result.tried:
            lines.append(f"{crate}: {result.refused} of {result.tried} refused")
    return lines
