"""Tables in Markdown, and the numbers in their cells."""

from typing import Iterable, Optional, Sequence


def table(heads: Sequence[str], rows: Iterable[Sequence[object]]) -> str:
    lines = [heads, ["---"] * len(heads), *rows]
    return "\n".join("| " + " | ".join(map(str, line)) + " |" for line in lines) + "\n"


def whole(number: float) -> str:
    return f"{number:,.0f}"


def tenth(number: float) -> str:
    return f"{number:,.1f}"


def hundredth(number: float) -> str:
    return f"{number:,.2f}"


def milliseconds(seconds: float) -> str:
    return tenth(seconds * 1e3)


def microseconds(seconds: float) -> str:
    return hundredth(seconds * 1e6)


def ratio(of: Optional[float], to: Optional[float]) -> str:
    """The ratio of two numbers, or nothing if one is missing."""
    return hundredth(of / to) if of is not None and to else ""
