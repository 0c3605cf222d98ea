"""The crates of the repository: what each stands on, its wrong bodies, and a sum of what its proof reads."""

import functools
import hashlib
import pathlib

TOP = pathlib.Path(__file__).resolve().parent.parent.parent
PARTS = ("src", "specs", "proofs")


class Repository:
    """A checkout, by its top folder. It is read once: make another after a change."""

    def __init__(self, top: pathlib.Path = TOP) -> None:
        self.top = top
        self.uses: dict[str, list[str]] = {}
        for line in (top / "crates.txt").read_text().split("\n"):
            name, colon, uses = line.partition("#")[0].partition(":")
            if colon:
                self.uses[name.split()[0]] = uses.split()

    def own_uses(self, crate: str) -> list[str]:
        """The crates of the repository that a crate uses, without the kit's."""
        return [name for name in self.uses[crate] if name in self.uses]

    @functools.cache
    def below(self, crate: str) -> frozenset[str]:
        """All crates of the repository that a crate stands on."""
        uses = self.own_uses(crate)
        return frozenset(uses).union(*(self.below(name) for name in uses))

    def folder(self, crate: str) -> pathlib.Path:
        return self.top / "crates" / crate

    def edits_beside(self, crate: str) -> list[pathlib.Path]:
        """The wrong bodies of a crate that the gate doesn't try."""
        return sorted((self.top / "mutants" / crate).glob("*.edit"))

    def edits(self, crate: str) -> list[pathlib.Path]:
        """The wrong bodies of a crate: first those that the gate tries, then those beside it."""
        return [*sorted((self.folder(crate) / "must-fail").glob("*.edit")), *self.edits_beside(crate)]

    def crates_with_edits(self) -> list[str]:
        return [crate for crate in self.uses if self.edits(crate)]

    @functools.cache
    def own_sum(self, crate: str) -> bytes:
        """A sum of a crate's own sources, and of what it uses."""
        found = hashlib.sha256(repr(self.uses[crate]).encode())
        for part in PARTS:
            folder = self.folder(crate) / part
            for path in sorted(path for path in folder.rglob("*") if path.is_file()):
                found.update(repr((str(path.relative_to(self.top)), path.read_bytes())).encode())
        return found.digest()

    def source_sum(self, crate: str) -> str:
        """A sum of a crate's sources, of those below it, and of its wrong bodies."""
        found = hashlib.sha256()
        for name in sorted({crate, *self.below(crate)}):
            found.update(self.own_sum(name))
        for path in self.edits(crate):
            found.update(repr((path.name, path.read_bytes())).encode())
        return found.hexdigest()[:16]
