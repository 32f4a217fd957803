"""Cases: what is given to an operation, and the rules that it exercises. Their expected results are
the model's."""

from typing import Callable, List, NamedTuple, Sequence, Tuple

from trau.suite.operations import OPERATIONS


class Case(NamedTuple):
    """A case: its operation and name (`decode/lags`), the rules that it exercises, and its input."""

    operation: str
    title: str
    rules: Tuple[str, ...]
    given: bytes

    def name(self) -> str:
        """The operation and the title."""
        return f"{self.operation}/{self.title}"

    def periods(self) -> int:
        """How many units are given."""
        return len(self.given) // OPERATIONS[self.operation].unit


def case(operation: str, title: str, rules: str, given: bytes) -> Case:
    """A case; the rules in one text, with spaces between them."""
    return Case(operation, title, tuple(rules.split()), given)


Maker = Callable[[], Sequence[Case]]


def all_cases() -> List[Case]:
    """All cases, in the order in which they are tried."""
    from trau.suite import call_cases, codec_cases, law_cases, line_cases, pause_cases
    from trau.suite import recording_cases

    makers: Tuple[Maker, ...] = (
        law_cases.cases,
        line_cases.cases,
        codec_cases.decoder_cases,
        codec_cases.encoder_cases,
        pause_cases.receiving_cases,
        pause_cases.sending_cases,
        call_cases.cases,
        recording_cases.cases,
    )
    return [each for maker in makers for each in maker()]
