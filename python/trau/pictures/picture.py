"""The picture of a run as SVG: a row for each call, with what its uplink and its downlink held,
levels, bridges and shifts; the orders above, and their words below."""

import math
from itertools import groupby
from typing import Any, Callable, Dict, List, Optional, Tuple

from trau.pictures.layout import LEFT, TICK_ROOM, TOP, Layout, Shape, counted, seconds, span
from trau.pictures.looks import DownlinkLook, UplinkLook
from trau.pictures.rows import BRIDGE_COLOUR, OUT_COLOUR, PCM_COLOUR, Rows
from trau.pictures.svg import GRID, INK, PALE, STYLE, Svg, text_width
from trau.rules.profile import PERIODS_A_SECOND
from trau.runs import call_lines
from trau.runs.run_lines import Run

ORDERS = 34
LEGEND_ROW = 22
LEAST_WIDTH = 900
RIGHT = 24
LIST_ROW = 15
MOST_LISTED = 3000


class Picture(Layout):
    """A picture of a run from a period on to another, which is drawn from the back to the front."""

    def __init__(
        self,
        run: Run,
        width: int,
        shape: Shape,
        first: Optional[int] = None,
        last: Optional[int] = None,
    ) -> None:
        super().__init__(run, width, shape, first, last)
        words = [self.row_words(call) for call in run.calls]
        longest = max(text_width(each, 12) for each in [*words, self.missing_words()])
        self.width = math.ceil(max(LEAST_WIDTH, self.plot_right + 12 + longest)) + RIGHT
        self.place_rows()
        self.svg = Svg(self.width, self.height)

    # Places

    def place_rows(self) -> None:
        """Places the parts of the picture below one another."""
        entries = self.legend()
        self.legend_step = max(text_width(words, 12) for words, _ in entries) + 46
        self.legend_rows = -(-len(entries) // max(1, int((self.width - LEFT) // self.legend_step)))
        self.legend_top = TOP + (46 if self.column > 1 else 34)
        self.orders_top = self.legend_top + self.legend_rows * LEGEND_ROW + 16
        self.rows_top = self.orders_top + ORDERS
        rows = [call.number for call in self.run.calls]
        self.rows = {
            number: self.rows_top + self.shape.height() * place for place, number in enumerate(rows)
        }
        self.axis = self.rows_top + self.shape.height() * len(rows)
        self.list_top = self.axis + 62
        listed = self.listed_orders()
        self.list_step = max([text_width(words, 11) for words, _ in listed], default=0.0) + 24
        across = max(1, int((self.width - LEFT) // self.list_step))
        self.list_rows = -(-len(listed) // across)
        self.height = self.list_top + (self.list_rows * LIST_ROW + 34 if listed else 0)

    # Layers

    def read_lines(self, column: int, processes: int) -> Dict[int, call_lines.CallLines]:
        """What the calls' lines have, by columns of this many periods."""
        return call_lines.read_lines(
            self.run, range(self.first, self.last, column), bool(self.shape.level), processes
        )

    def draw(self, processes: int = 1) -> bytes:
        """The picture's file."""
        rows = Rows(self, self.svg, self.read_lines(self.column, processes))
        self.svg.add("title", text="The periods of a run's calls")
        self.svg.add("style", text=STYLE)
        self.svg.hatching()
        self.svg.box(0, 0, self.width, self.height, "#FFFFFF")
        self.draw_head()
        self.draw_legend()
        self.draw_axis()
        bridges = [
            bridge
            for bridge in self.run.bridges
            if bridge.start < self.last and bridge.end >= self.first
        ]
        for bridge in bridges:
            rows.draw_link(bridge)
        for call in self.run.calls:
            rows.draw_call(call)
        for bridge in bridges:
            rows.draw_bridge(bridge)
        self.draw_orders()
        self.draw_list()
        return self.svg.content()

    def draw_head(self) -> None:
        """What the picture shows, in words."""
        calls, bridges = counted(len(self.run.calls), "call"), counted(
            len(self.run.bridges), "bridge"
        )
        self.svg.text(
            LEFT, TOP + 10, f"{calls}, {bridges}, periods {span(self.first, self.last)}", "head"
        )
        if self.column > 1:
            told = f"a column is {counted(self.column, 'period')}: each loss has its part of the height, above it is what most others are"
            self.svg.text(LEFT, TOP + 28, told, "small")

    def legend(self) -> List[Tuple[str, Callable[[float, float], None]]]:
        """What the legend says, and what draws a sample of it around a place."""

        def swatch(colour: str, height: int, **more: Any) -> Callable[[float, float], None]:
            return lambda x, y: self.svg.box(x - 13, y - height / 2, 26, height, colour, **more)

        def shift(x: float, y: float) -> None:
            self.svg.triangle(x - 9, y + 4)
            self.svg.text(x - 3, y + 4, "+2", "tiny")

        def orders(x: float, y: float) -> None:
            self.svg.tick(x - 9, y)
            self.svg.cross(x + 6, y)

        def level(colour: str) -> Callable[[float, float], None]:
            return lambda x, y: self.svg.line(x - 13, y, x + 13, y, colour, 2)

        shown: List[UplinkLook] = [look for look in UplinkLook if look is not UplinkLook.PAUSE]
        shown.insert(shown.index(UplinkLook.VALID_SID) + 1, UplinkLook.PAUSE)
        edge: Dict[str, Any] = {"stroke": INK, "stroke_width": 0.75}
        entries = [(look.words, swatch(look.colour, 14, **edge)) for look in shown]
        entries.append((DownlinkLook.HANDED.words, swatch(DownlinkLook.HANDED.colour, 8, **edge)))
        if self.shape.level:
            entries += [("level of Out", level(OUT_COLOUR)), ("level of Pcm", level(PCM_COLOUR))]
        return entries + [
            ("bridge, over its periods", swatch(BRIDGE_COLOUR, 12)),
            ("the downlink's timing shifts, in octets", shift),
            (
                "a shift is asked for, and waits",
                lambda x, y: self.svg.triangle(x - 9, y + 4, filled=False),
            ),
            ("orders; a refused one among them", orders),
        ]

    def draw_legend(self) -> None:
        """The legend, column after column."""
        for number, (words, sample) in enumerate(self.legend()):
            column, row = divmod(number, self.legend_rows)
            x, y = LEFT + column * self.legend_step, self.legend_top + row * LEGEND_ROW
            sample(x + 13, y + 7)
            self.svg.text(x + 34, y + 11, words)

    def draw_axis(self) -> None:
        """Grid, axis, and the tracks of the rows."""
        for call in self.rows:
            self.svg.box(LEFT, self.top(call), self.plot_right - LEFT, self.shape.band, PALE)
        step = self.tick_step()
        for period in range(-(-self.first // step) * step, self.last + 1, step):
            x = self.x(period)
            self.svg.line(x, self.orders_top, x, self.axis + 6, GRID)
            self.svg.line(x, self.axis, x, self.axis + 6, INK)
            self.svg.text(x, self.axis + 22, f"{period / PERIODS_A_SECOND:g}", "", "middle")
            self.svg.text(x, self.axis + 40, str(period), "small", "middle")
        self.svg.line(LEFT, self.axis, self.plot_right, self.axis, INK)
        self.svg.text(LEFT - 34, self.axis + 22, "seconds", "", "end")
        self.svg.text(LEFT - 34, self.axis + 40, "period", "small", "end")

    def tick_step(self) -> int:
        """The periods between two marks of the axis."""
        step = 1
        while True:
            for times in (1, 2.5, 5):
                if times * step == int(times * step) and times * step * self.scale >= TICK_ROOM:
                    return int(times * step)
            step *= 10

    # Orders

    def draw_orders(self) -> None:
        """A mark at each period that has orders."""
        label = LEFT - 14 if self.shape.is_compact() else LEFT - 34
        self.svg.text(label, self.orders_top + 12, "orders", "name", "end")
        shown = self.shown_orders()
        for stamp, given in groupby(shown, lambda each: each.order.stamp):
            orders = list(given)
            told = "\n".join(
                [f"period {stamp} ({seconds(stamp)})", *(each.told() for each in orders)]
            )
            mark = (
                self.svg.tick
                if all(each.reply.refusal is None for each in orders)
                else self.svg.cross
            )
            mark(self.x(stamp), self.orders_top + 8, told)
        if self.missing_words():
            self.svg.text(self.plot_right + 12, self.orders_top + 12, self.missing_words(), "small")

    def listed_orders(self) -> List[Tuple[str, str]]:
        """The words of the orders, as they stand below the picture, and how they are written."""
        shown = self.shown_orders()
        listed = [
            (
                f"period {each.order.stamp} ({seconds(each.order.stamp)}), {each.told()}",
                "small" if each.reply.refusal is None else "small alarm",
            )
            for each in shown[:MOST_LISTED]
        ]
        if len(shown) > MOST_LISTED:
            listed.append((f"and {len(shown) - MOST_LISTED} more", "small"))
        return listed

    def draw_list(self) -> None:
        """The words of the orders, column after column."""
        listed = self.listed_orders()
        if listed:
            self.svg.text(LEFT, self.list_top + 8, "orders", "name")
        for number, (words, kind) in enumerate(listed):
            column, row = divmod(number, self.list_rows)
            self.svg.text(
                LEFT + column * self.list_step, self.list_top + 28 + row * LIST_ROW, words, kind
            )
