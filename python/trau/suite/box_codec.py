"""Names the rule of the decoder that a box breaks: the standard's numbers are turned one at a time
until the octets are explained."""

from typing import Iterator, List, NamedTuple, Optional, Sequence, Tuple

from trau.rules.parameters import Parameters

from trau.suite.box_decoder import HOME, STANDARD, DecoderTables, decode
from trau.suite.box_laws import Ranges, agreeing

Row = List[Tuple[Parameters, bytes]]  # frames that came in a row, and what the box made of each

SETTLED = 7  # frames in which what came before a row is forgotten
SOON_SETTLED = 5  # where no row is longer
MOST_FRAMES = 16  # of a row that are decoded
MOST_ROWS = 4
MOST_MISS = 2000  # a sample that is further off counts as so far
SMALLER = 0.93  # a turn that leaves more than this part of the misses isn't looked at closer
CLEAR = 3  # the right number leaves so many times fewer octets unexplained than any other
CANDIDATES = 3
HALVINGS = 11
FINE_STEPS = (64, 32, 16, 8, 4, 2, 1)

# The fields of the tables that have one number a case, and the rule of each.
NUMBERS = {
    "fac": "decoder.pulses",
    "qlb": "decoder.lag-gain",
    "inva": "decoder.ratios",
    "b": "decoder.ratios",
    "bends": "decoder.reflection",
    "raises": "decoder.reflection",
    "deemphasis": "decoder.postprocessing",
}
LEAST_STEP = {"b": 256}  # of numbers that may be 0
# Other ways, each as a whole.
WAYS: Tuple[Tuple[str, str, DecoderTables], ...] = (
    ("decoder.interpolation", "no interpolation", STANDARD._replace(shares=(4, 4, 4, 4))),
    ("decoder.interpolation", "the old ratios", STANDARD._replace(shares=(0, 0, 0, 4))),
    ("decoder.interpolation", "halves alone", STANDARD._replace(shares=(2, 2, 2, 4))),
    ("decoder.interpolation", "spans of 40 samples", STANDARD._replace(lengths=(40, 40, 40, 40))),
    ("decoder.interpolation", "13, 13 and 14", STANDARD._replace(lengths=(13, 13, 14, 120))),
    ("decoder.interpolation", "14, 13 and 13", STANDARD._replace(lengths=(14, 13, 13, 120))),
    ("decoder.synthesis", "products that are cut", STANDARD._replace(rounding=(0,))),
    (
        "decoder.ratios",
        "codes from other least ones",
        STANDARD._replace(mic=tuple(value + 1 for value in STANDARD.mic)),
    ),
    ("decoder.postprocessing", "no deemphasis", STANDARD._replace(deemphasis=(0,))),
)


class Turned(NamedTuple):
    """A rule, and what was measured in place of what it has."""

    rule: str
    measured: str
    allowed: str


class Likely(NamedTuple):
    """A number of the tables that seems turned: its field and place, and the misses that remain."""

    field: str
    place: int
    value: int
    misses: int


def replaced(field: str, place: int, value: int) -> DecoderTables:
    """The tables with one number turned."""
    values = list(getattr(STANDARD, field))
    values[place] = value
    return STANDARD._replace(**{field: tuple(values)})


class Explainer:
    """Decodes rows of frames by turned tables and counts what isn't explained."""

    def __init__(self, rows: Sequence[Row], ranges: Ranges) -> None:
        self.rows, self.ranges = rows, ranges
        longest = max(map(len, rows), default=0)
        self.settled = SETTLED if longest > SETTLED else SOON_SETTLED

    def first_row(self) -> "Explainer":
        """The same with the first row alone, which is faster."""
        return Explainer(self.rows[:1], self.ranges)

    def samples(self, tables: DecoderTables) -> Iterator[Tuple[List[int], bytes]]:
        """The settled frames' samples and octets."""
        for row in self.rows:
            state = HOME
            for k, (parameters, octets) in enumerate(row):
                samples, state = decode(tables, state, parameters)
                if k >= self.settled:
                    yield samples, octets

    def misses(self, tables: DecoderTables) -> int:
        """How far all samples are from what their octets allow."""
        total = 0
        for samples, octets in self.samples(tables):
            for sample, octet in zip(samples, octets):
                first, last = self.ranges[octet]
                total += min(MOST_MISS, max(0, first - sample, sample - last))
        return total

    def explained(self, tables: DecoderTables) -> float:
        """The part of the octets that are explained."""
        pairs = list(self.samples(tables))
        fit = sum(agreeing(self.ranges, samples, octets) for samples, octets in pairs)
        return fit / max(1, sum(len(samples) for samples, _ in pairs))

    def unexplained(self, row: Row) -> float:
        """The part of a row's octets that the standard doesn't explain."""
        return 1 - Explainer([row], self.ranges).explained(STANDARD)

    def likely(self) -> List[Likely]:
        """The numbers that leave fewer misses if they are turned a little, the fewest first."""
        before, found = self.misses(STANDARD), []
        for field in NUMBERS:
            for place, value in enumerate(getattr(STANDARD, field)):
                step = max(LEAST_STEP.get(field, 1), abs(value) // 32)
                tries = [
                    Likely(field, place, other, self.misses(replaced(field, place, other)))
                    for other in (value - step, value + step)
                ]
                found.append(min(tries, key=lambda one: one.misses))
        found.sort(key=lambda one: one.misses)
        return [each for each in found[:CANDIDATES] if each.misses < SMALLER * before]

    def closest(self, start: Likely) -> Likely:
        """The value of a number that leaves the fewest misses."""
        best = start
        step = max(LEAST_STEP.get(start.field, 1), abs(start.value) // 16)
        for _ in range(HALVINGS):
            for value in (best.value - step, best.value + step):
                misses = self.misses(replaced(start.field, start.place, value))
                if misses < best.misses:
                    best = Likely(start.field, start.place, value, misses)
            step = max(1, step // 2)
        return best

    def part(self, one: Likely) -> float:
        """The part of the octets that a number explains."""
        return self.explained(replaced(one.field, one.place, one.value))

    def finest(self, start: Likely) -> Likely:
        """The value near one that explains the most: misses are also left by what came before."""
        best, most = start, self.part(start)
        for step in FINE_STEPS:
            for value in (best.value - step, best.value + step):
                other = best._replace(value=value)
                part = self.part(other)
                if part > most:
                    best, most = other, part
        return best


Explanation = Tuple[float, Turned]


def turned_ways(explainer: Explainer) -> Iterator[Explanation]:
    """Other ways of rules, with the part of the octets that each explains."""
    for rule, measured, tables in WAYS:
        yield explainer.explained(tables), Turned(rule, measured, "as the standard has it")


def turned_numbers(explainer: Explainer) -> Iterator[Explanation]:
    """Numbers that are turned, with the part of the octets that each explains."""
    found: List[Likely] = []
    for start in explainer.first_row().likely():
        misses = explainer.misses(replaced(start.field, start.place, start.value))
        found.append(explainer.closest(start._replace(misses=misses)))
    found.sort(key=explainer.part, reverse=True)
    for k, each in enumerate(found):
        best = explainer.finest(each) if k == 0 else each
        part = explainer.part(best)
        about = "" if part == 1 else "about "
        name = f"{best.field.upper()}[{best.place}] {about}{best.value}"
        allowed = str(getattr(STANDARD, best.field)[best.place])
        yield part, Turned(NUMBERS[best.field], name, allowed)


def pieces(row: Row) -> Iterator[Row]:
    """The pieces of a row, each long enough to be looked at."""
    for start in range(0, len(row), MOST_FRAMES):
        piece = row[start : start + MOST_FRAMES]
        if len(piece) > SOON_SETTLED:
            yield piece


def telling_rows(rows: Sequence[Row], ranges: Ranges) -> List[Row]:
    """A few long rows of which the standard explains the least."""
    found = [piece for row in rows for piece in pieces(row)]
    found.sort(key=len, reverse=True)
    longest = found[: 4 * MOST_ROWS]
    explainer = Explainer(longest, ranges)
    longest.sort(key=lambda row: -explainer.unexplained(row) * (len(row) - SOON_SETTLED))
    return longest[:MOST_ROWS]


def turned_rule(rows: Sequence[Row], ranges: Ranges) -> Optional[Turned]:
    """The rule of the decoder that these rows of frames don't keep: the one that explains nearly
    all of what the standard doesn't, if no other does so too."""
    telling = telling_rows(rows, ranges)
    if not telling:
        return None
    explainer = Explainer(telling, ranges)
    left = 1 - explainer.explained(STANDARD)
    found = [*turned_ways(explainer), *turned_numbers(explainer)]
    found.sort(key=lambda one: -one[0])
    part, best = found[0]
    others = [other for other, turned in found if turned.rule != best.rule]
    is_alone = not others or 1 - part <= (1 - max(others)) / CLEAR
    return best if 1 - part <= left / CLEAR and is_alone else None
