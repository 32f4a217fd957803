"""An SVG drawing: its elements, and the marks that a picture of a run is made of."""

import xml.etree.ElementTree as ElementTree
from typing import Any

INK, PALE, GRID, ALARM = "#222222", "#F4F4F4", "#DDDDDD", "#B00020"
LETTER = 0.62  # the width of a letter, as a part of its size, on the safe side

STYLE = """
text { font-family: 'DejaVu Sans', Verdana, Arial, sans-serif; font-size: 12px; fill: #222222 }
.head { font-size: 17px; font-weight: bold }
.name { font-size: 13px; font-weight: bold }
.small { font-size: 11px; fill: #555555 }
.tiny { font-size: 10px }
.alarm { fill: #B00020 }
.white { fill: #FFFFFF; pointer-events: none }
.halo { stroke: #FFFFFF; stroke-width: 3px; stroke-linejoin: round; paint-order: stroke }
"""


def text_width(text: str, size: float) -> float:
    """At most so wide is a text of letters of a size."""
    return len(text) * size * LETTER


class Svg:
    """An SVG drawing. Lengths are in pixels; later elements cover those before."""

    def __init__(self, width: float, height: float) -> None:
        sizes = {"width": f"{width:.0f}", "height": f"{height:.0f}"}
        box = f"0 0 {width:.0f} {height:.0f}"
        names = {"xmlns": "http://www.w3.org/2000/svg"}
        self.root = ElementTree.Element("svg", {**names, **sizes, "viewBox": box})

    def add(
        self, name: str, title: str = "", text: str = "", **attributes: Any
    ) -> ElementTree.Element:
        """Adds an element, whose tooltip is the title."""
        values = {
            key.replace("_", "-"): f"{value:.2f}".rstrip("0").rstrip(".")
            if isinstance(value, float)
            else str(value)
            for key, value in attributes.items()
        }
        element = ElementTree.SubElement(self.root, name, values)
        if title:
            ElementTree.SubElement(element, "title").text = title
        if text:
            element.text = text
        return element

    def text(self, x: float, y: float, text: str, kind: str = "", anchor: str = "start") -> None:
        attributes = {"class": kind} if kind else {}
        self.add("text", text=text, x=x, y=y, text_anchor=anchor, **attributes)

    def box(
        self,
        x: float,
        y: float,
        width: float,
        height: float,
        fill: str,
        title: str = "",
        **more: Any,
    ) -> None:
        self.add("rect", title, x=x, y=y, width=width, height=height, fill=fill, **more)

    def line(
        self,
        x1: float,
        y1: float,
        x2: float,
        y2: float,
        stroke: str,
        width: float = 1,
        title: str = "",
    ) -> None:
        self.add("line", title, stroke=stroke, stroke_width=width, x1=x1, y1=y1, x2=x2, y2=y2)

    def triangle(self, x: float, y: float, title: str = "", filled: bool = True) -> None:
        """The mark of a shift, which points down at a place; one that waits isn't filled."""
        shape = f"M{x - 4:.2f} {y - 7:.2f}h8l-4 7z"
        if filled:
            self.add("path", title, d=shape, fill=INK)
        else:
            self.add("path", title, d=shape, fill="#FFFFFF", stroke=INK, stroke_width=1)

    def tick(self, x: float, y: float, title: str = "") -> None:
        """The mark of orders, around a place."""
        self.line(x, y - 6, x, y + 6, INK, 2, title)

    def cross(self, x: float, y: float, title: str = "") -> None:
        """The mark of orders with a refused one among them."""
        shape = f"M{x - 5:.2f} {y - 5:.2f}l10 10m-10 0l10 -10"
        self.add("path", title, d=shape, stroke=ALARM, stroke_width=2.5, fill="none")

    def hatching(self) -> None:
        """The pattern of periods that yield nothing."""
        attributes = {
            "id": "nothing",
            "width": "5",
            "height": "5",
            "patternUnits": "userSpaceOnUse",
        }
        pattern = ElementTree.SubElement(
            self.add("defs"), "pattern", attributes, patternTransform="rotate(45)"
        )
        ElementTree.SubElement(pattern, "rect", width="5", height="5", fill="#FFFFFF")
        ElementTree.SubElement(pattern, "rect", width="1.4", height="5", fill="#777777")

    def content(self) -> bytes:
        """The drawing's file."""
        ElementTree.indent(self.root, " ")
        return bytes(ElementTree.tostring(self.root, "utf-8")) + b"\n"
