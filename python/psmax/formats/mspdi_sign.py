"""By what a file of Microsoft Project is known, without all that reads it."""
import re

SUFFIX = ".xml"


def is_like(text: str) -> bool:
    return text.lstrip().startswith("<") and re.search(r"<(\w+:)?Project\b", text[:10_000]) is not None
