"""The version: the numbers of the language, of the file format and of the driver."""

LANGUAGE = 7
FILE_FORMAT = 4
DRIVER = 3

NUMBER = f"{LANGUAGE}.{FILE_FORMAT}.{DRIVER}"
MEANING = f"language {LANGUAGE}, file format {FILE_FORMAT}, driver {DRIVER}"
