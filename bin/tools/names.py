"""Looks up in the sources each name that the documents give together with its place."""

import functools
import pathlib
import re
from collections.abc import Iterable, Iterator, Sequence

from tools.repository import TOP

CRATES = {path.name for path in (TOP / "crates").iterdir() if path.is_dir()}
# Documents that speak of nothing but this repository.
OWN = {"ARCHITECTURE.md", "DECISIONS.md", "FORMATS.md", "MODEL.md", "PROOFS.md"}
# Where a name may stand.
FOLDERS = ("crates", "bin", "bench", "trials")
NAME = r"`(?:\w+::)*[A-Za-z_]\w*`"
MODULE = r"(?:specs|proofs)/[A-Z]\w*(?:\.antt)?"
OF_CRATE = rf"(?:crates/)?(?:{'|'.join(sorted(CRATES))})(?:/(?:src/)?[\w/]+\.rt|/{MODULE}| [A-Z]\w*[a-z]\w*)?"
PLACE = rf"`(?:{OF_CRATE}|{MODULE}|(?:src/)?\w+\.rt)`"
NAMED = re.compile(rf"({NAME}(?:(?:, | and |, and | or ){NAME})*) (?:of|in) ({PLACE})(?:[^`|]* of ({PLACE}))?")
HAS = re.compile(rf"(?:({NAME}) of )?({PLACE}|{NAME}) \(([^)]*)\)")
QUOTED = re.compile(r"`([^`\n]+)`")
# How Rattle's code, and how a module of definitions, makes a name.
IN_CODE = r"\b(fn|struct|enum|trait|type|const|static|mod) {0}\b|^\s+(pub )?{0}(,$| \{{$|\(|:)"
IN_MODULE = r"^\s*((abbrev|unfoldable|pub|data|record) )+{0}(?![\w-])|^\s*{0} :"


@functools.cache
def text_of(path: pathlib.Path) -> str:
    return path.read_text(errors="replace")


@functools.cache
def known_words() -> set[str]:
    """All words that stand in sources, with the examples, and in scripts."""
    paths = (path for folder in FOLDERS for path in (TOP / folder).rglob("*"))
    files = [path for path in paths if path.is_file() and "out" not in path.relative_to(TOP).parts]
    found = {word for path in files for word in re.findall(r"\w+", text_of(path))}
    return found | CRATES | {path.name for path in TOP.iterdir()}


def names_in(text: str) -> list[str]:
    return [quoted.rsplit("::")[-1] for quoted in QUOTED.findall(text) if re.fullmatch(NAME, f"`{quoted}`")]


def places_of(quoted: str, crates: Iterable[str]) -> list[pathlib.Path]:
    """The files or folders that a place may be: one, or one in each of these crates."""
    crate, _, rest = quoted.strip("`").removeprefix("crates/").replace(" ", "/specs/").partition("/")
    if crate not in CRATES:
        return [place for own in crates for place in places_of(f"{own}/{quoted.strip('`')}", ())]
    if rest.endswith(".rt"):
        return [TOP / "crates" / crate / "src" / rest.removeprefix("src/")]
    return [TOP / "crates" / crate / (rest and rest.removesuffix(".antt") + ".antt")]


def is_defined(name: str, place: pathlib.Path) -> bool:
    """Whether a file, or a file of a crate, defines the name."""
    if place.is_dir():
        files = [path for part in ("src", "specs", "proofs") for path in (place / part).rglob("*") if path.is_file()]
        return any(path.stem == name or is_defined(name, path) for path in files)
    form = (IN_CODE if place.suffix == ".rt" else IN_MODULE).format(name)
    return re.search(form, text_of(place), re.MULTILINE) is not None


def flaws_of(names: Iterable[str], quoted: str, crates: Iterable[str]) -> Iterator[str]:
    """The place that isn't there, or the names that aren't in it."""
    places = [place for place in places_of(quoted, crates) if place.exists()]
    if not places:
        yield f"there is no {quoted.strip('`')}"
    for name in names:
        if places and not any(is_defined(name, place) for place in places):
            yield f"{name} isn't in {quoted.strip('`')}"


def crates_in(line: str) -> list[str]:
    """The crates that a paragraph names."""
    return [word for word in dict.fromkeys(re.findall(r"\w+", line)) if word in CRATES]


def has_module(crate: str, module: str) -> bool:
    return places_of(f"{crate}/specs/{module}", ())[0].exists()


def flaws_of_list(found: re.Match[str], line: str, crates: Sequence[str]) -> Iterator[str]:
    """The flaws of "`place` (`name`)" and of "`Module` of `crate` (`name`)"."""
    module, place, names = found[1], found[2], names_in(found[3])
    crate = place.strip("`")
    if re.fullmatch(PLACE, place) and not (module and crate in CRATES):
        yield from flaws_of(names, place, crates)
    elif module and has_module(crate, module.strip("`")):
        yield from flaws_of(names, f"{crate}/specs/{module.strip('`')}", ())
    elif not module and (last := [it for it in re.findall(r"\w+", line[: found.start()]) if it in CRATES]):
        if has_module(last[-1], crate):
            yield from flaws_of(names, f"{last[-1]}/specs/{crate}", ())


def flaws(line: str, before: Sequence[str]) -> Iterator[str]:
    """What a paragraph names that isn't where it says. Before it come paragraphs that name these crates."""
    crates = [*crates_in(line), *before] or sorted(CRATES)
    for place in re.findall(PLACE, line):
        yield from flaws_of([], place, crates)
    for found in NAMED.finditer(line):
        for place in filter(None, found.groups()[1:]):
            yield from flaws_of(names_in(found[1]), place, crates)
    for found in HAS.finditer(line):
        yield from flaws_of_list(found, line, crates)


def flaws_in(document: pathlib.Path) -> Iterator[str]:
    """A line for each name of a document that isn't found."""
    before: list[str] = []
    for number, line in enumerate(document.read_text().split("\n"), 1):
        before = [] if line.startswith("#") else before
        nowhere = [name for name in names_in(line) if document.name in OWN and name not in known_words()]
        for flaw in dict.fromkeys([*flaws(line, before), *(f"{name} is nowhere" for name in nowhere)]):
            yield f"{document.relative_to(TOP)}:{number}: {flaw}"
        before = list(dict.fromkeys([*before, *crates_in(line)]))


def main(_: list[str]) -> int:
    documents = [TOP / "README.md", *sorted((TOP / "docs").glob("*.md"))]
    found = [flaw for document in documents for flaw in flaws_in(document)]
    print(*found, sep="\n", end="\n" if found else "")
    return 1 if found else 0
