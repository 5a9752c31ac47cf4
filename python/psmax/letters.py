"""Texts that others wrote, as they are read and shown."""
import unicodedata

LONGEST = 60  # letters of a text that are shown
MOST_TOLD = 20  # faults of one file


def printable(text: str) -> str:
    """The text with a ? for each sign that can't be printed."""
    return "".join(sign if sign.isprintable() else "?" for sign in text)


def composed(text: str) -> str:
    """The text with each letter and its marks as one sign, however they were typed (Unicode's NFC)."""
    return unicodedata.normalize("NFC", text)


def escaped(name: str) -> str:
    """The name of a file, with what can't be printed and what is no UTF-8 as a backslash and its number."""
    return "".join(sign if sign.isprintable() else sign.encode("ascii", "backslashreplace").decode() if ord(sign) > 127
                   else f"\\x{ord(sign):02x}" for sign in name)


def short(text: str) -> str:
    """The same, cut where it is long."""
    return printable(text[:LONGEST]) + (".." if len(text) > LONGEST else "")


def at_most(told: list[str]) -> list[str]:
    """So many faults that one still reads them."""
    more = len(told) - MOST_TOLD
    return told if more <= 0 else [*told[:MOST_TOLD], f"and {more} more"]
