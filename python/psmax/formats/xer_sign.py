"""By what a .xer file of Primavera P6 is known, without all that reads it."""

SUFFIX = ".xer"
MARK = "ERMHDR\t"


def is_like(text: str) -> bool:
    return text.startswith(MARK)
