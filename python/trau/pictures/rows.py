"""The rows of a picture of a run: what each call's uplink and downlink held, levels, bridges and
shifts."""

from typing import Any, Dict, List, Sequence, Type

from trau.pictures import looks
from trau.pictures.layout import LEFT, Layout, counted, seconds, signed, span
from trau.pictures.looks import DOWN_LOSSES, LOSSES, DownlinkLook, Look, UplinkLook
from trau.pictures.svg import GRID, INK, Svg, text_width
from trau.rules.report import ReportedBridge
from trau.runs import run_lines
from trau.runs.call_lines import LOWEST_LEVEL, QUARTERS, CallLines
from trau.runs.run_lines import RecordedCall

BRIDGE_COLOUR = "#3B3B98"
OUT_COLOUR, PCM_COLOUR = "#117733", "#A6761D"


class Rows:
    """The rows of a picture's calls, as they are drawn."""

    def __init__(self, layout: Layout, svg: Svg, lines: Dict[int, CallLines]) -> None:
        self.layout = layout
        self.svg = svg
        self.lines = lines

    def draw_link(self, bridge: ReportedBridge) -> None:
        """The bars that tie the rows of a bridge's calls, drawn behind the rows between them."""
        if not all(call in self.layout.rows for call in bridge.calls):
            return
        upper, lower = sorted(self.layout.top(number, "bridge") for number in bridge.calls)
        left, right = self.layout.x(bridge.start), self.layout.x(bridge.end)
        self.svg.box(
            left,
            upper + self.layout.shape.bridge,
            right - left,
            lower - upper - self.layout.shape.bridge,
            BRIDGE_COLOUR,
            fill_opacity=0.045,
        )
        for x in (left, right):
            self.svg.line(x, upper, x, lower, BRIDGE_COLOUR, 1.5)

    def draw_bridge(self, bridge: ReportedBridge) -> None:
        """The bar of a bridge in the rows of its calls."""
        left, right = self.layout.x(bridge.start), self.layout.x(bridge.end)
        a, b = bridge.calls
        title = (
            f"bridge of {a} and {b} {span(bridge.start, bridge.end)}: {bridge.sent[0]} frames of {a} sent by {b},"
            f" {bridge.sent[1]} of {b} by {a}; lost {bridge.lost[0]} and {bridge.lost[1]}"
        )
        for number, partner in (bridge.calls, bridge.calls[::-1]):
            if number not in self.layout.rows:
                continue
            top = self.layout.top(number, "bridge")
            self.svg.box(
                left, top, max(right - left, 2), self.layout.shape.bridge - 3, BRIDGE_COLOUR, title
            )
            if not self.layout.shape.is_compact():
                fitting = (f"bridge with call {partner}", f"with {partner}", str(partner), "")
                words = next(
                    words
                    for words in fitting
                    if text_width(words, 10) + 6 <= right - left or not words
                )
                self.svg.text((left + right) / 2, top + 9.5, words, "tiny white", "middle")

    def draw_call(self, call: RecordedCall) -> None:
        """The row of a call."""
        layout, top = self.layout, self.layout.top(call.number)
        left, right = layout.x(call.span.start), layout.x(call.span.end)
        self.draw_name(call, top)
        start = call.span.start
        shown = slice(max(0, layout.first - start), max(0, layout.last - start))
        up = looks.looks(call.brought())[shown]
        self.draw_band(call, up, UplinkLook, LOSSES, top, layout.shape.band, "")
        down = (layout.top(call.number, "down"), layout.shape.down - 3, "downlink ")
        self.draw_band(call, self.lines[call.number].down, DownlinkLook, DOWN_LOSSES, *down)
        if layout.shape.level:
            self.draw_levels(call)
        edge: Dict[str, Any] = {"stroke": INK, "stroke_width": 0.75, "pointer_events": "none"}
        self.svg.box(left, top, right - left, layout.shape.band, "none", **edge)
        self.draw_ends(call, top)
        self.draw_shifts(call, top)

    def draw_name(self, call: RecordedCall, top: float) -> None:
        """The name of a call at the start of its row, and its periods where there is room."""
        if self.layout.shape.is_compact():
            self.svg.text(LEFT - 14, top + 9, f"call {call.number}", "tiny", "end")
            return
        self.svg.text(LEFT - 34, top + 11, f"call {call.number}", "name", "end")
        periods = f"{call.span.start} to {call.span.end}"
        self.svg.text(LEFT - 34, top + 26, periods, "small", "end")

    def draw_ends(self, call: RecordedCall, top: float) -> None:
        """The bars at a call's opening and end, and the words at the end of its row."""
        layout, height = self.layout, self.layout.shape.band
        start, end = call.span.start, call.span.end
        opening = f"call {call.number} opened at period {start} ({seconds(start)})"
        words = layout.end_words(call)
        ending = f"call {call.number} ended at period {end} ({seconds(end)}): {words}"
        for period, title in ((start, opening), (end, ending)):
            if layout.first <= period <= layout.last:
                x = layout.x(period)
                self.svg.line(x, top - 2, x, top + height + 2, INK, 2, title)
        told = f"call {call.number}: {layout.outcomes[call.number].told()}\n{ending}"
        place = {"x": layout.plot_right + 12, "y": top + height / 2 + 4}
        size = {"class": "tiny" if layout.shape.is_compact() else "plain"}
        self.svg.add("text", told, layout.row_words(call), **place, **size)

    def draw_band(
        self,
        call: RecordedCall,
        values: bytes,
        kind: Type[Look],
        losses: Sequence[Look],
        top: float,
        height: float,
        what: str,
    ) -> None:
        """The periods of a call by the codes of their looks, from the first that is shown on."""
        start = max(call.span.start, self.layout.first)
        for stretch in looks.columns(values, kind, losses, self.layout.column, round(height)):
            left, right = start + stretch.start, start + stretch.end
            title = f"call {call.number} {what}{span(left, right)}: {stretch.said()}"
            y = top
            for look, steps in stretch.parts:
                high = height * steps / round(height)
                x, width = self.layout.x(left), self.layout.x(right) - self.layout.x(left)
                self.svg.box(x, y, width, high, look.colour, title, shape_rendering="crispEdges")
                y += high

    def draw_levels(self, call: RecordedCall) -> None:
        """The levels of a call's Pcm and Out line."""
        top, height = self.layout.top(call.number, "level"), self.layout.shape.level - 4
        drawn = self.lines[call.number].levels
        if not any(drawn.values()):
            return
        for level in (0, LOWEST_LEVEL):
            y = top + height * level / LOWEST_LEVEL
            self.svg.line(LEFT, y, self.layout.plot_right, y, GRID, 0.75)
            self.svg.text(LEFT - 4, y + 4, f"{level} dBm0".replace("-", "\u2212"), "tiny", "end")
        for side, colour in (("pcm", PCM_COLOUR), ("out", OUT_COLOUR)):
            if drawn[side]:
                title = f"call {call.number}: level of {side.capitalize()}"
                steps = self.level_steps(call, drawn[side], top, height)
                self.svg.add("path", title, d=steps, fill="none", stroke=colour, stroke_width=1.1)

    def level_steps(self, call: RecordedCall, values: bytes, top: float, height: float) -> str:
        """The path of a line's levels, one for each column."""
        start = max(call.span.start, self.layout.first)
        end = min(call.span.end, self.layout.last)
        steps: List[str] = []
        for place, value in enumerate(values):
            y = top + height * (1 + value / QUARTERS / LOWEST_LEVEL)
            left, right = self.layout.x(start + place * self.layout.column), self.layout.x(
                min(start + (place + 1) * self.layout.column, end)
            )
            steps.append(
                f"M{left:.1f} {y:.1f}H{right:.1f}" if place == 0 else f"V{y:.1f}H{right:.1f}"
            )
        return "".join(steps)

    def draw_shifts(self, call: RecordedCall, top: float) -> None:
        """Marks of the shifts of a call's downlink, with their octets where there is room, and of
        those that wait."""
        waiting = [
            asked
            for asked in run_lines.asked_while_frozen(call, self.layout.run.bridges)
            if self.layout.shows(asked.period)
        ]
        for asked in waiting:
            title = (
                f"call {call.number}, from period {asked.period} ({seconds(asked.period)}) on: {counted(asked.times, 'frame')}"
                f" in a bridge asked for {asked.octets:+d} octets, which waits until after it"
            )
            self.svg.triangle(self.mark_of(asked.period), top - 3, title, filled=False)
        shifts = list(call.shifts())
        marks = sorted(
            {self.mark_of(period) for period, _ in shifts}
            | {self.mark_of(asked.period) for asked in waiting}
        )
        free = 0.0
        for period, octets in shifts:
            if self.layout.shows(period):
                free = self.draw_shift(call, top, period, octets, marks, free)

    def mark_of(self, period: int) -> float:
        """Where the mark of a period's shift points."""
        return self.layout.x(period) + self.layout.scale / 2

    def draw_shift(
        self,
        call: RecordedCall,
        top: float,
        period: int,
        octets: int,
        marks: Sequence[float],
        free: float,
    ) -> float:
        """The mark of a shift, its octets if no other mark or text is in the way, and where the
        room after them begins."""
        x = self.mark_of(period)
        title = (
            f"call {call.number}, period {period} ({seconds(period)}): the downlink's timing moves by"
            f" {octets:+d} octets of the Pcm line ({octets / 8:+g} ms)"
        )
        self.svg.triangle(x, top - 3, title)
        end = x + 6 + text_width(signed(octets), 10)
        following = next((mark for mark in marks if mark > x), float("inf"))
        if self.layout.shape.is_compact() or x < free or end + 4 > following:
            return free
        self.svg.text(x + 6, top - 4, signed(octets), "tiny halo")
        return end
