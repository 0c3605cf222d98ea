"""`python -m piql new FOLDER`: a small site with a schema, its pages and a test, which run at once."""

from pathlib import Path

from .errors import OperationalError
from .plain import plain_path

TEMPLATE = Path(__file__).resolve().parent / "template"
# The files of a new site; bounds.lock has the bounds of the schema's queries.
NAMES = ("README.md", "bounds.lock", "schema.piql", "site_of_notes.py", "test_site.py")


def make_site(folder: str) -> list[str]:
    """Makes the folder with the files of a new site; their names. It has to be new, or empty."""
    place = Path(plain_path(folder, "the folder of a new site"))
    try:
        place.mkdir(parents=True, exist_ok=True)
        if any(place.iterdir()):
            raise OperationalError(f"{place} has files already: a new site begins in a new folder")
        for name in NAMES:
            with (place / name).open("xb") as file:
                file.write((TEMPLATE / name).read_bytes())
    except OSError as error:
        raise OperationalError(f"{place} can't be made: {error.strerror}") from error
    return list(NAMES)
