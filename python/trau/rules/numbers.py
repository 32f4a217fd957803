"""The grammar of decimal numbers in orders, marks and words of a command line (this project's
profile)."""

import re
from typing import Optional


def number(text: str, least: int, most: int) -> Optional[int]:
    """The number that a word spells: decimal digits without sign and without leading zeros.

    None where the word is none, or its number isn't `least` to `most`."""
    is_number = re.fullmatch("0|[1-9][0-9]*", text) and len(text) <= len(str(most))
    return int(text) if is_number and least <= int(text) <= most else None
