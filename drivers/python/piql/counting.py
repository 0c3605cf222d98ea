"""Numbers of things in messages."""


def counted(number: int, noun: str) -> str:
    """A number of things, of which more than one have an s."""
    return f"{number} {noun}{'' if number == 1 else 's'}"
