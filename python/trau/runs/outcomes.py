"""Outcomes of calls: how much of their speech was lost, their longest gap, and which are the worst.
"""

from typing import List, NamedTuple, Sequence, Tuple

from trau.rules.profile import PERIODS_A_SECOND
from trau.runs.run_lines import (
    LOST_HEARD,
    SPEECH_HEARD,
    Heard,
    RecordedCall,
    Stretch,
    longest,
    stretches,
)


class Outcome(NamedTuple):
    """How many periods of a call's uplink were speech, how many were speech that was lost,
    and the longest gap."""

    speech: int
    lost: int
    gap: Stretch  # the longest loss; of no period if there is none

    def rate(self) -> float:
        """The part of the speech that was lost."""
        return self.lost / (self.speech + self.lost) if self.lost else 0.0

    def short(self) -> str:
        """The part that was lost and the longest gap, in few words."""
        if self.lost:
            return f"lost {100 * self.rate():.2f} %, gap {self.gap.length / PERIODS_A_SECOND:.2f} s"
        return "lost 0 %" if self.speech else "no speech"

    def told(self) -> str:
        """The same with all numbers."""
        return (
            f"{self.lost} of {self.speech + self.lost} periods of speech lost ({100 * self.rate():.2f} %),"
            f" the longest gap {self.gap.length} periods ({self.gap.length / PERIODS_A_SECOND:.2f} s)"
        )


def outcome_of(call: RecordedCall) -> Outcome:
    """The outcome of a call."""
    heard = call.heard()
    gap = longest(stretches(heard, Heard.LOST)) or Stretch(0, 0)
    return Outcome(heard.count(SPEECH_HEARD), heard.count(LOST_HEARD), gap)


def badness(call: RecordedCall) -> Tuple[float, ...]:
    """What calls are sorted by, the worst first: lines that failed, the part of the speech that was
    lost, the longest gap, the number."""
    outcome = outcome_of(call)
    return (-len(call.failed), -outcome.rate(), -outcome.gap.length, call.number)


def worst_first(calls: Sequence[RecordedCall]) -> List[RecordedCall]:
    """The calls, the worst first."""
    return sorted(calls, key=badness)
