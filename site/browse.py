#!/usr/bin/env python3
"""Opens the microblog in headless Chromium, for few and for many users, and compares: site/browse.py [--picture FILE]

It fills two stores, of 100 and of 10,000 users, serves each by site/run.py with four workers, and opens the pages of
one user in both. The pages have to be the same, with the same bounds and the same numbers of what was used. Where there
is no Chromium this is told, and nothing is tried.
"""

import argparse
import os
import shutil
import signal
import subprocess
import sys
import tempfile
from collections.abc import Iterator
from contextlib import contextmanager
from pathlib import Path

HERE = Path(__file__).resolve().parent
USER = "u00050"
FEED = f"/user/{USER}/feed"
PATHS = [FEED, f"/user/{USER}", f"/user/{USER}/following", f"/user/{USER}/followers", f"/post/{USER}/2000050", "/users"]
FEW, MANY = 100, 10_000
BROWSERS = ("chromium", "chromium-browser", "google-chrome")
# A browser of its own profile, without a sandbox where root runs it, as in a container.
FLAGS = ["--headless", "--disable-gpu", "--no-first-run", "--hide-scrollbars", "--window-size=760,1420"]


@contextmanager
def served(file: Path) -> Iterator[str]:
    """The site over a store; its address."""
    words = [sys.executable, str(HERE / "run.py"), "--file", str(file), "--port", "0", "--workers", "4"]
    process = subprocess.Popen(words, stdout=subprocess.PIPE, text=True)
    assert process.stdout is not None
    try:
        yield process.stdout.readline().split()[0].rstrip("/")
    finally:
        process.send_signal(signal.SIGTERM)
        process.wait()


def browser_words(browser: str, profile: Path) -> list[str]:
    """How the browser is begun."""
    sandbox = ["--no-sandbox"] if os.geteuid() == 0 else []
    return [browser, *FLAGS, *sandbox, f"--user-data-dir={profile}"]


def page(browser: str, profile: Path, address: str) -> str:
    """What the browser makes of a page."""
    words = [*browser_words(browser, profile), "--dump-dom", address]
    return subprocess.run(words, stdout=subprocess.PIPE, stderr=subprocess.DEVNULL, check=True, text=True).stdout


def draw(browser: str, profile: Path, address: str, picture: Path) -> None:
    """A picture of a page."""
    words = [*browser_words(browser, profile), f"--screenshot={picture}", address]
    subprocess.run(words, stdout=subprocess.DEVNULL, stderr=subprocess.DEVNULL, check=True)


def pages(browser: str, folder: Path, users: int, picture: Path | None) -> list[str]:
    """The pages of the site with so many users."""
    file = folder / f"{users}.db"
    subprocess.run([sys.executable, str(HERE / "seed.py"), str(users), str(file)], check=True)
    with served(file) as address:
        if picture is not None:
            draw(browser, folder / "profile", address + FEED, picture)
        return [page(browser, folder / "profile", address + path) for path in PATHS]


def differences(few: list[str], many: list[str]) -> list[str]:
    """The addresses whose pages differ, or aren't pages of the site."""
    return [path for path, one, other in zip(PATHS, few, many) if one != other or "this page" not in one]


def main() -> int:
    """The command."""
    parser = argparse.ArgumentParser(description="Compares the site's pages for few and for many users in Chromium.")
    parser.add_argument("--picture", type=Path, help="a PNG file for a picture of the feed")
    given = parser.parse_args()
    browsers = [path for name in BROWSERS if (path := shutil.which(name))]
    if not browsers:
        print("skipped: no Chromium is installed")
        return 0
    place = "/dev/shm" if os.access("/dev/shm", os.W_OK) else None
    with tempfile.TemporaryDirectory(prefix="microblog-", dir=place) as folder:
        few = pages(browsers[0], Path(folder), FEW, given.picture)
        many = pages(browsers[0], Path(folder), MANY, None)
    different = differences(few, many)
    for path in PATHS:
        print(f"{path}: {'differs' if path in different else 'the same'} for {FEW:,} and {MANY:,} users")
    print(f"{len(PATHS) - len(different)} passed, {len(different)} failed")
    return 1 if different else 0


if __name__ == "__main__":
    sys.exit(main())
