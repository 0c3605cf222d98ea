"""The version: the numbers of the language, of the file format and of the driver, as pyproject.toml has them."""

VERSION = "7.4.3"
