"""Modules of the commands in bin/. They stand on the Python package."""

import pathlib
import sys

sys.path.insert(1, str(pathlib.Path(__file__).resolve().parent.parent.parent / "drivers" / "python"))
