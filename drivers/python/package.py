"""Builds the package for pip, by the standard library alone, so that it is installed without a network."""

import base64
import hashlib
import tomllib
import zipfile
from pathlib import Path
from typing import Any

HERE = Path(__file__).resolve().parent
FILES = ("*.py", "py.typed", "*.md", "*.piql", "*.lock")


def project() -> dict[str, Any]:
    """What pyproject.toml says of the project."""
    found: dict[str, Any] = tomllib.loads((HERE / "pyproject.toml").read_text())["project"]
    return found


def metadata() -> str:
    """The package's description for pip."""
    of = project()
    lines = [
        "Metadata-Version: 2.1",
        f"Name: {of['name']}",
        f"Version: {of['version']}",
        f"Summary: {of['description']}",
        f"Requires-Python: {of['requires-python']}",
        f"License: {of['license']}",
    ]
    for extra, wanted in of.get("optional-dependencies", {}).items():
        lines += [f"Provides-Extra: {extra}", *(f'Requires-Dist: {it}; extra == "{extra}"' for it in wanted)]
    return "\n".join(lines) + "\n"


def entry_points() -> str:
    """What other packages find this one by."""
    groups = project().get("entry-points", {})
    texts = [f"[{group}]\n" + "".join(f"{name} = {it}\n" for name, it in of.items()) for group, of in groups.items()]
    return "\n".join(texts)


def contents(info: str) -> dict[str, bytes]:
    """The files of the wheel by their names: the modules, what they read, and the licence."""
    paths = sorted(path for pattern in FILES for path in (HERE / "piql").rglob(pattern))
    found = {str(path.relative_to(HERE)): path.read_bytes() for path in paths}
    for name in ("LICENSE", "NOTICE"):
        found[f"{info}/{name}"] = (HERE.parents[1] / name).read_bytes()
    found[f"{info}/METADATA"] = metadata().encode()
    found[f"{info}/entry_points.txt"] = entry_points().encode()
    found[f"{info}/WHEEL"] = b"Wheel-Version: 1.0\nGenerator: package\nRoot-Is-Purelib: true\nTag: py3-none-any\n"
    return found


def record(files: dict[str, bytes], info: str) -> str:
    """The list of the files with their sums."""
    lines = []
    for name, data in files.items():
        digest = base64.urlsafe_b64encode(hashlib.sha256(data).digest()).decode().rstrip("=")
        lines.append(f"{name},sha256={digest},{len(data)}\n")
    return "".join([*lines, f"{info}/RECORD,,\n"])


def build_wheel(
    wheel_directory: str, config_settings: object = None, metadata_directory: str | None = None
) -> str:
    """The hook that pip calls: writes the wheel; its name."""
    of = project()
    stem = f"{of['name']}-{of['version']}"
    info, name = f"{stem}.dist-info", f"{stem}-py3-none-any.whl"
    files = contents(info)
    with zipfile.ZipFile(Path(wheel_directory) / name, "w", zipfile.ZIP_DEFLATED) as wheel:
        for path, data in files.items():
            wheel.writestr(path, data)
        wheel.writestr(f"{info}/RECORD", record(files, info))
    return name
